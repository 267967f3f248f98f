// Runs the driver, linked for wasm32: node driver.mjs driver.wasm
import { readFileSync, writeSync } from "node:fs";

const STANDARD_OUTPUT = 1;
let memory;
const put_text = (at, length) => writeSync(STANDARD_OUTPUT, new Uint8Array(memory.buffer, at, length));
const { instance } = await WebAssembly.instantiate(readFileSync(process.argv[2]), { env: { put_text } });
memory = instance.exports.memory;
process.exitCode = instance.exports.driver_main();
