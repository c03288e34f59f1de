"use strict";
// node pictures.js CHROMIUM PAGE HASH HEIGHT PICTURE ..: a picture of each page at its move, 1280 pixels wide. With
// "track" for HEIGHT it is one of the track alone, half as wide.
const fs = require("node:fs");
const { Browser } = require("./browser.js");

// Where the track is on the page, to be drawn at half its size.
function trackOf() {
    const { x, y, width, height } = document.getElementById("stage").getBoundingClientRect();
    return { x, y, width, height, scale: 0.5 };
}

async function main([chromium, ...words]) {
    const browser = new Browser(chromium);
    await browser.open();
    await browser.media([{ name: "prefers-color-scheme", value: "light" }]);
    for (let i = 0; i < words.length; i += 4) {
        const [page, hash, height, picture] = words.slice(i, i + 4);
        await browser.size(1280, Number(height) || 700);
        await browser.visit(page, hash);
        await browser.run(() => new Promise(resolve => setTimeout(resolve, 500)));
        const clip = height === "track" ? await browser.run(trackOf) : undefined;
        const { data } = await browser.send("Page.captureScreenshot", { format: "png", clip });
        fs.writeFileSync(picture, Buffer.from(data, "base64"));
    }
    await browser.close();
}

main(process.argv.slice(2));
