// Screenshots of the page's three views: the roast at a desk, its memory with the claims at work, and the roast on a phone.
// node shots.mjs FOLDER
import { writeFileSync } from "node:fs";
import { join } from "node:path";
import { CURIOUS, ROAST, makePage } from "../command.mjs";
import { browserName, openBrowser } from "./chromium.mjs";

const MOST_BYTES = 150_000;
const TOP_OF_MEMORY = "document.getElementById('controls').style.position = 'static'; scrollTo(0, document.getElementById('panel-memory').offsetTop - 12)";

const SHOTS = [
  { name: "roast", example: ROAST, steps: 12, size: { width: 1180, height: 1120 }, then: "scrollTo(0, 0)" },
  { name: "memory", example: CURIOUS, steps: 5, size: { width: 1180, height: 1290 }, then: TOP_OF_MEMORY },
  { name: "phone", example: ROAST, steps: 26, size: { width: 390, height: 844, isPhone: true, isDark: true }, then: "document.getElementById('panel-policy').scrollIntoView(); scrollBy(0, -170)" },
];

const [folder] = process.argv.slice(2);
const browser = await openBrowser(browserName());
try {
  for (const { name, example, steps, size, then } of SHOTS) {
    const page = await browser.page(makePage(example), size);
    for (let i = 0; i < steps; i++) await page.key("ArrowRight");
    await page.run(`${then}; null`);
    const picture = await page.shot();
    if (picture.length > MOST_BYTES) throw new Error(`${name}: ${picture.length} bytes, more than ${MOST_BYTES}`);
    writeFileSync(join(folder, `page-${name}.webp`), picture);
    console.log(`${join(folder, `page-${name}.webp`)} ${picture.length} bytes`);
    await page.close();
  }
} finally {
  await browser.close();
}
