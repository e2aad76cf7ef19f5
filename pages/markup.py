"""HTML that every page has: the frame with its style, sections, words with code among them, states by number and name."""
import re
from html import escape
from pathlib import Path

from .picture import style

STYLE = Path(__file__).resolve().parent / "page.css"


def page(title, parts):
    """A whole page. Its rules are in it, so that it needs no other file."""
    rules = STYLE.read_text(encoding="utf-8") + style(".curve ")
    return "\n".join([
        "<!DOCTYPE html>", '<html lang="en">', "<head>", '<meta charset="utf-8">',
        '<meta name="viewport" content="width=device-width, initial-scale=1">', f"<title>{escape(title)}</title>",
        f"<style>\n{rules.strip()}\n</style>", "</head>", "<body>", "<main>", *parts, "</main>", "</body>", "</html>"]) + "\n"


def section(name, title, parts):
    return [f'<section id="{name}" aria-labelledby="{name}-head">', f'<h2 id="{name}-head">{title}</h2>', *parts, "</section>"]


def listed(lines):
    return "<ul>\n" + "\n".join(f"<li>{escape(line)}</li>" for line in lines) + "\n</ul>"


def sentence(words):
    """Words as a sentence of their own."""
    return coded(words[0].upper() + words[1:])


def coded(words):
    """Words with what stands between backticks as code."""
    return re.sub("`([^`]*)`", r"<code>\1</code>", escape(words, quote=False))


def name_of(sheet, state):
    """The name of a state, set apart so that letters which run from right to left leave the rest of its line alone."""
    return f"<bdi>{escape(sheet.names[state])}</bdi>" if state in sheet.names else ""


def told(sheet, state):
    """A state by its number and, in brackets, its name."""
    return f"state {state}" + (f" ({name_of(sheet, state)})" if state in sheet.names else "")


def verdict(word):
    return f'<span class="verdict {word}">{word}</span>'


def ending(word):
    """A verdict at the end of a sentence, on one line with its full stop."""
    return f'<span class="whole">{verdict(word)}.</span>'


def figure(drawing, about, caption):
    """A drawing that is moved sideways by itself where it is wider than the page; the keyboard reaches it."""
    return "\n".join([
        "<figure>", f'<div class="drawing" tabindex="0" role="region" aria-label="{escape(about)}">', drawing + "</div>",
        f'<figcaption><span class="sideways">The drawing moves sideways.</span> {caption}</figcaption>', "</figure>"])
