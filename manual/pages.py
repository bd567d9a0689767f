"""The Markdown of the pages as the site takes it: links within the site, lists indented by four, and names of definitions as links."""

import html
import os
import re
from collections.abc import Collection, Mapping

# A link of a page to another file.
LINK = re.compile(r"\[([^\]]*)\]\(([^)#:\s]+)(#[^)\s]*)?\)")
FENCED = re.compile(r"^( *)```(\w*)\n(.*?)^\1```$", re.MULTILINE | re.DOTALL)
COMMENT = re.compile(r"^<!--.*?-->\n?", re.MULTILINE | re.DOTALL)
ITEM = re.compile(r"( *)([-*]|\d+\.)( +)\S")
WORD = re.compile(r"[^\W\d]\w*")
# The parts of a page in which a name isn't made a link: a heading, a link or a picture.
KEPT = re.compile(r"^#.*$|!?\[[^\]]*\]\([^)]*\)", re.MULTILINE)
CODE = re.compile(r"(?<!`)`(\w+)`(?!`)")


def without_missing_links(text: str, page: str, files: Collection[str]) -> str:
    """A page without the links to files that aren't among these: their words stay."""
    here = os.path.dirname(page)
    return LINK.sub(lambda link: link[0] if os.path.normpath(os.path.join(here, link[2])) in files else link[1], text)


def with_lists_indented(text: str) -> str:
    """The lists of a text with each level indented by four spaces, and an empty line after an item of several paragraphs: Python's Markdown
    needs both, and other readers don't."""
    lines, open_items, is_fenced, has_parts = list[str](), list[int](), False, False
    for line in text.split("\n"):
        item, margin = None if is_fenced else ITEM.match(line), len(line) - len(line.lstrip(" "))
        if line.strip() and not is_fenced:
            while open_items and margin < open_items[-1]:
                open_items.pop()
        if item and has_parts and lines[-1]:
            lines.append("")
        has_parts = bool(open_items) and not item and (has_parts or not line)
        depth = len(open_items) if line else 0
        lines.append(" " * 4 * depth + (line[min(margin, open_items[-1]) :] if depth else line))
        is_fenced ^= line.lstrip(" ").startswith("```")
        if item:
            open_items.append(len(item[1]) + len(item[2]) + len(item[3]))
    return "\n".join(lines)


def relative_path(page: str, target: str) -> str:
    return os.path.relpath(target, os.path.dirname(page) or ".")


def html_with_links(text: str, page: str, targets: Mapping[str, str]) -> str:
    """A text with the names of definitions as links. `targets` has the page of each name."""
    def linked(found: re.Match[str]) -> str:
        name = found[0]
        # mkdocs leaves the addresses of such a link as they are
        path = relative_path(page, targets[name]).removesuffix(".md") if name in targets else None
        return f'<a href="{path}.html#{name}">{name}</a>' if path else name

    return "<pre><code>" + WORD.sub(linked, html.escape(text, quote=False)) + "</code></pre>"


def with_linked_names(text: str, page: str, targets: Mapping[str, str]) -> str:
    """Sentences with the names of definitions as links."""
    def linked(found: re.Match[str]) -> str:
        name = found[1]
        return f"[{found[0]}]({relative_path(page, targets[name])}#{name})" if name in targets else found[0]

    parts, last = [], 0
    for kept in KEPT.finditer(text):
        parts += [CODE.sub(linked, text[last : kept.start()]), kept[0]]
        last = kept.end()
    return "".join([*parts, CODE.sub(linked, text[last:])])


def with_linked_definitions(text: str, page: str, targets: Mapping[str, str]) -> str:
    """A page with the names of definitions as links, in its sentences and in its blocks of text, but not in its headings."""
    parts, last = [], 0
    for fence in FENCED.finditer(text):
        is_named = fence[2] == "text" and not fence[1] and any(word in targets for word in WORD.findall(fence[3]))
        parts.append(with_linked_names(text[last : fence.start()], page, targets))
        parts.append(html_with_links(fence[3], page, targets) if is_named else fence[0])
        last = fence.end()
    return "".join([*parts, with_linked_names(text[last:], page, targets)])


def text_for_site(text: str, page: str, files: Collection[str], targets: Mapping[str, str]) -> str:
    """A page as the site takes it."""
    return with_linked_definitions(with_lists_indented(COMMENT.sub("", without_missing_links(text, page, files))), page, targets)
