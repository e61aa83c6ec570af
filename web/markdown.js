// The Markdown of exercises: headings, paragraphs, lists, code between backquotes, and code that is set in by four blanks.
import { element } from "./elements.js";

const inline = (text) => text.split(/(`[^`]+`)/).map((part) => (/^`.+`$/.test(part) ? element("code", {}, part.slice(1, -1)) : part));

function blockOf(block) {
  const lines = block.split("\n");
  if (lines.every((line) => line.startsWith("    "))) return element("pre", {}, lines.map((line) => line.slice(4)).join("\n"));
  if (lines.every((line) => /^(- |  )/.test(line))) {
    return element("ul", {}, ...block.slice(2).split("\n- ").map((item) => element("li", {}, ...inline(item))));
  }
  const [, mark, title] = block.match(/^(#+) (.*)$/s) ?? [];
  return mark ? element("h3", {}, ...inline(title)) : element("p", {}, ...inline(block));
}

/** The elements that a text comes to. */
export const elementsOf = (text) => text.trim().split(/\n\n+/).map(blockOf);
