// What is said where a text has no sheet: the words, the line that they are about, and what is marked.
import { TEXTS } from "./texts.mjs";
import { decimal } from "./fields.mjs";

// { line: 0 for none, words, lines, names } of an answer with a fault or a refusal.
export function refusalIn({ fault, refusal }, text) {
  if (fault) {
    // a missing name has the line after the last, where there is nothing to mark
    const there = fault.line > 0 && fault.line <= text.split("\n").length && fault.wrong !== "is missing";
    const lines = there ? [fault.line] : [];
    return { line: lines[0] ?? 0, words: TEXTS.fault(fault), lines, names: [fault.name] };
  }
  const { lines, fields } = refusal;
  const ranges = fields.map(([name, decimals, , low, high]) => [name, decimal(low, decimals), decimal(high, decimals)]);
  return { line: lines[0] ?? 0, words: TEXTS.refusal(refusal, ranges), lines, names: fields.map(([name]) => name) };
}
