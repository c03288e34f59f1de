"use strict";
// Which part of the drawing is seen.
class View {
    constructor(svg, picture, map, signal) {
        this.svg = svg;
        this.picture = picture;
        this.bounds = picture.bounds;
        this.map = map;
        this.moved = false;
        this.fingers = new Map();
        this.drawMap();
        this.fit();
        const resized = () => { if (!signal.aborted) this.resized(); };
        const observer = new ResizeObserver(() => requestAnimationFrame(resized));
        observer.observe(svg);
        signal.addEventListener("abort", () => observer.disconnect());
        svg.addEventListener("wheel", event => {
            const fits = !this.moved && this.scale() <= this.fitting() * 1.001;
            if (event.ctrlKey || !fits) this.wheel(event);
        }, { passive: false });
        svg.addEventListener("pointerdown", event => {
            if (event.button !== 0) return;
            svg.setPointerCapture(event.pointerId);
            if (!this.fingers.size) this.dragged = 0;
            this.fingers.set(event.pointerId, [event.clientX, event.clientY]);
        });
        svg.addEventListener("pointermove", event => {
            this.drag(event);
            const [x, y] = this.placeAt(event.clientX, event.clientY);
            picture.point(x, y, 60 * picture.u);
        });
        svg.addEventListener("pointerleave", () => picture.point(0, 0, 0));
        const goTo = event => {
            if (event.type === "pointermove" && !event.buttons || event.button > 0) return;
            const { left, top, width, height } = map.getBoundingClientRect();
            const x = this.bounds.x + (event.clientX - left) / width * this.bounds.width;
            const y = this.bounds.y + (event.clientY - top) / height * this.bounds.height;
            this.moved = true;
            this.set(x - this.box.width / 2, y - this.box.height / 2, this.box.width);
        };
        map.addEventListener("pointerdown", goTo);
        map.addEventListener("pointermove", goTo);
        for (const kind of ["pointerup", "pointercancel"]) {
            svg.addEventListener(kind, event => this.fingers.delete(event.pointerId));
        }
    }

    size() {
        const { clientWidth, clientHeight } = this.svg;
        return { wide: clientWidth || 800, high: clientHeight || 400 };
    }

    scale() {
        return this.size().wide / this.box.width;
    }

    fitting() {
        const { wide, high } = this.size();
        return Math.min(wide / this.bounds.width, high / this.bounds.height);
    }

    resized() {
        if (this.moved) {
            this.set(this.box.x, this.box.y, this.box.width);
            return;
        }
        this.fit();
        if (this.kept) this.keep(this.kept);
    }

    // The height of the picture follows the network. All of it is seen where that can be read, otherwise a part.
    fit() {
        const { wide } = this.size();
        const most = Math.max(240, Math.min(innerHeight * 0.62, 1400));
        const readable = wide < 700 ? 0.7 : 0.4;
        const scale = Math.max(Math.min(wide / this.bounds.width, this.largest()), readable);
        const high = Math.max(150, Math.min(most, this.bounds.height * scale));
        if (!document.body.classList.contains("full")) this.svg.style.height = high + "px";
        this.set(0, 0, wide / Math.max(Math.min(this.fitting(), this.largest()), readable));
        this.centre(true);
    }

    // A small network isn't drawn larger than this.
    largest() {
        return Math.max(1.6, this.size().wide / 750);
    }

    centre(cropped) {
        const { x, y, width, height } = this.bounds;
        const left = cropped && this.box.width < width ? x : x + width / 2 - this.box.width / 2;
        const top = cropped && this.box.height < height ? y : y + height / 2 - this.box.height / 2;
        this.set(left, top, this.box.width);
    }

    whole() {
        this.moved = false;
        this.svg.style.height = "";
        this.fit();
        const scale = Math.min(this.fitting(), this.largest());
        this.set(0, 0, this.size().wide / scale);
        this.centre(false);
    }

    // The middle of what is seen stays on the drawing.
    set(x, y, width) {
        const { wide, high } = this.size();
        const height = width * high / wide;
        const { bounds } = this;
        const within = (at, size, least, whole) => Math.max(least - size / 2, Math.min(least + whole - size / 2, at));
        const [left, top] = [within(x, width, bounds.x, bounds.width), within(y, height, bounds.y, bounds.height)];
        this.box = { x: left, y: top, width, height };
        this.svg.setAttribute("viewBox", [this.box.x, this.box.y, width, height].map(round).join(" "));
        this.rescale();
        this.showCut();
    }

    // What keeps its size on the screen is drawn anew where the scale is another, once in a frame.
    rescale() {
        const scale = this.scale();
        if (Math.abs(scale / this.picture.scale - 1) < 0.01) return;
        if (!this.moved) {
            this.picture.rescale(scale);
            return;
        }
        this.waits = this.waits || requestAnimationFrame(() => {
            this.waits = 0;
            if (!this.map.isConnected) return;
            this.picture.rescale(this.scale());
        });
    }

    placeAt(clientX, clientY) {
        const { left, top } = this.svg.getBoundingClientRect();
        const scale = this.scale();
        return [this.box.x + (clientX - left) / scale, this.box.y + (clientY - top) / scale];
    }

    // The whole in small, with a frame about what is seen.
    drawMap() {
        const { x, y, width, height } = this.bounds;
        this.map.setAttribute("viewBox", [x, y, width, height].map(round).join(" "));
        this.map.style.aspectRatio = `${round(width)} / ${round(height)}`;
        this.map.replaceChildren();
        make("path", { d: this.picture.segments.map(({ way }) => pathOf(way)).join(""), class: "rail" }, this.map);
        this.frame = make("rect", { class: "frame" }, this.map);
        this.dots = this.picture.trains.map((_, t) => make("path", { class: `dot s ${colourOf(t)}` }, this.map));
    }

    showDots() {
        if (this.map.hasAttribute("hidden")) return;
        this.dots.forEach((dot, train) => {
            const [x, y] = this.picture.middleOf(train);
            dot.setAttribute("d", `M${round(x)} ${round(y)}h0.1`);
        });
    }

    // Says at which sides the picture is cut.
    showCut() {
        const { box, bounds } = this;
        const sides = [];
        if (bounds.x + 12 < box.x) sides.push("left");
        if (bounds.y + 12 < box.y) sides.push("top");
        if (bounds.x + bounds.width - 12 > box.x + box.width) sides.push("right");
        if (bounds.y + bounds.height - 12 > box.y + box.height) sides.push("bottom");
        byId("stage").dataset.cut = sides.join(" ");
        this.map.toggleAttribute("hidden", sides.length === 0);
        byId("cut").hidden = sides.length === 0;
        for (const [name, value] of Object.entries(box)) this.frame.setAttribute(name, round(value));
        this.showDots();
    }

    // Closer by a factor, about a place of the window or the middle.
    zoom(factor, clientX, clientY) {
        const frame = this.svg.getBoundingClientRect();
        const shareX = clientX === undefined ? 0.5 : (clientX - frame.left) / frame.width;
        const shareY = clientY === undefined ? 0.5 : (clientY - frame.top) / frame.height;
        const most = 2 * Math.max(this.bounds.width, this.bounds.height * this.size().wide / this.size().high);
        const width = Math.max(150, Math.min(most, this.box.width / factor));
        const { x, y, width: before, height } = this.box;
        this.moved = true;
        this.set(x + shareX * (before - width), y + shareY * (height - height * width / before), width);
    }

    wheel(event) {
        event.preventDefault();
        this.zoom(Math.exp(-event.deltaY * (event.deltaMode ? 0.05 : 0.0015)), event.clientX, event.clientY);
    }

    drag(event) {
        const last = this.fingers.get(event.pointerId);
        if (!last) return;
        const now = [event.clientX, event.clientY];
        const others = [...this.fingers].filter(([id]) => id !== event.pointerId).map(([, place]) => place);
        this.fingers.set(event.pointerId, now);
        this.dragged = (this.dragged || 0) + Math.hypot(now[0] - last[0], now[1] - last[1]);
        if (now[0] === last[0] && now[1] === last[1]) return;
        this.moved = true;
        if (others.length === 0) {
            const scale = this.scale();
            this.set(this.box.x - (now[0] - last[0]) / scale, this.box.y - (now[1] - last[1]) / scale, this.box.width);
        } else {
            const [x, y] = others[0];
            const factor = Math.hypot(now[0] - x, now[1] - y) / Math.max(1, Math.hypot(last[0] - x, last[1] - y));
            this.zoom(factor, (now[0] + x) / 2, (now[1] + y) / 2);
        }
    }

    // Moves the view so far that a place is in it, but not beyond the drawing.
    keep([x, y]) {
        this.kept = [x, y];
        const along = (at, from, size, least, whole) => {
            const edge = Math.min(70, size / 5);
            if (at >= from + edge && at <= from + size - edge) return from;
            if (size >= whole) return from <= least && from + size >= least + whole ? from : least + (whole - size) / 2;
            return Math.max(least, Math.min(least + whole - size, at - size / 2));
        };
        const { box, bounds } = this;
        const left = along(x, box.x, box.width, bounds.x, bounds.width);
        const top = along(y, box.y, box.height, bounds.y, bounds.height);
        if (left !== box.x || top !== box.y) this.set(left, top, box.width);
    }
}

