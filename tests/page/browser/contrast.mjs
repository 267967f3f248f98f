// The contrast of two colours, as WCAG has it. A colour is a text as a browser gives it, rgb(..).

export const LEAST_DRAWN = 3; // AA, for drawings

const numbers = (colour) => colour.match(/[\d.]+/g).map(Number);
const channel = (v) => (v / 255 <= 0.03928 ? v / 255 / 12.92 : ((v / 255 + 0.055) / 1.055) ** 2.4);

/** A colour that is drawn over another, with an opacity. */
export function drawnOver(top, under, opacity) {
  const [one, other] = [top, under].map(numbers);
  return `rgb(${one.map((v, i) => v * opacity + other[i] * (1 - opacity)).join()})`;
}

function luminance(colour) {
  const [r, g, b] = numbers(colour).map(channel);
  return 0.2126 * r + 0.7152 * g + 0.0722 * b;
}

export function contrast(one, other) {
  const [dark, light] = [luminance(one), luminance(other)].sort((a, b) => a - b);
  return (light + 0.05) / (dark + 0.05);
}
