// Numbers as the viewer writes and reads them.

const LOWEST = -(2 ** 31);
const HIGHEST_SIGNED = 2 ** 31 - 1;
const ABOVE_ALL = 2 ** 32;
const MINUS = "−";
const HEXADECIMAL = 16;

export const FORMATS = {
  unsigned: (x) => String(x >>> 0),
  signed: (x) => String(x | 0).replace("-", MINUS),
  hexadecimal: (x) => `0x${(x >>> 0).toString(HEXADECIMAL).toUpperCase()}`,
};

const RAW = /^0x[0-9a-f]+$/i;
const DECIMAL = /^-?\d+(?:\.(\d+))?$/;

const placesOf = (scale) => Math.round(Math.log10(scale));

/** A typed word as a number: with scale 10, 196.5 is 1965. A number with 0x is not scaled. */
function readWord(word, scale) {
  const decimals = word.match(DECIMAL)?.[1] ?? "";
  if (!RAW.test(word) && !DECIMAL.test(word)) return { problem: `“${word}” is no number. Write decimal numbers, or 0x and hexadecimal.` };
  if (decimals && scale === 1) return { problem: `Write a whole number: ${word} has decimals.` };
  if (decimals.length > placesOf(scale)) return { problem: `${word} has too many decimals: ${plural(placesOf(scale), "place")} at most.` };
  const number = RAW.test(word) ? Number(word) : Math.round(Number(word) * scale);
  if (scale !== 1 && !RAW.test(word) && number > HIGHEST_SIGNED) return { problem: `${word} is too much. Write a number up to ${HIGHEST_SIGNED / scale}.` };
  const range = `Write a number from ${FORMATS.signed(LOWEST)} to ${ABOVE_ALL - 1}.`;
  if (number < LOWEST || number >= ABOVE_ALL) return { problem: `${word.replace("-", MINUS)} has more than 32 bits. ${range}` };
  return { value: number >>> 0 };
}

/**
 * Numbers with commas or spaces between them: { values }, or { problem }, a sentence for the field. `scaleAfter` takes a number and
 * gives the scale of the next one.
 */
export function readNumbers(text, scaleAfter = () => 1) {
  const values = [];
  for (const word of text.replaceAll(MINUS, "-").split(/[\s,;]+/).filter(Boolean)) {
    const { value, problem } = readWord(word, scaleAfter(values.at(-1)));
    if (problem) return { problem };
    values.push(value);
  }
  return { values };
}

/** A list of numbers as a person writes it. */
export const numbersText = (values, scaleAfter) => values.map((value, i) => valueText(value, scaleAfter(values[i - 1]))).join(", ");

/** A value as a person reads it: with scale 10, 1965 is 196.5. Hexadecimal numbers are not scaled. */
export function valueText(value, scale, format = "unsigned") {
  if (scale === 1 || format === "hexadecimal") return FORMATS[format](value);
  return ((value | 0) / scale).toFixed(placesOf(scale)).replace("-", MINUS);
}

/** The number that `valueText` writes: scaled, and signed where it is. */
export function shownNumber(value, scale, format) {
  if (format === "hexadecimal") return value >>> 0;
  return scale === 1 && format === "unsigned" ? value >>> 0 : (value | 0) / scale;
}

/** A number of an axis, with as many decimals as the scale has. */
export function axisText(number, scale, format) {
  if (format === "hexadecimal") return `0x${number.toString(HEXADECIMAL).toUpperCase()}`;
  return String(Number(number.toFixed(placesOf(scale)))).replace("-", MINUS);
}

/** One number up to `most`: { value } or { problem }. */
export function readNumber(text, most = ABOVE_ALL - 1) {
  const { values, problem } = readNumbers(text);
  if (problem) return { problem };
  if (values.length !== 1) return { problem: values.length ? "Write one number only." : "Write a number." };
  const word = text.trim().replaceAll(MINUS, "-");
  if (most < ABOVE_ALL - 1 && word.startsWith("-") && values[0] > 0) return { problem: `${word.replace("-", MINUS)} is below 0. Write a number from 0 to ${most}.` };
  if (values[0] > most) return { problem: `${values[0]} is too much. Write a number up to ${most}.` };
  return { value: values[0] };
}

export const plural = (count, what) => `${count} ${what}${count === 1 ? "" : "s"}`;
