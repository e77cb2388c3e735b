"""The few shapes in SVG of which the pictures here are made, and those of what was measured."""

from html import escape


def attribute(value):
    """The value of an attribute: of a broken number one decimal place."""
    return f"{value:.1f}" if isinstance(value, float) else escape(str(value))


def shape(name, words=None, **attributes):
    """An element, with words in it or without. In the names of attributes `_` stands for `-`, and one behind a name is left out."""
    given = "".join(f' {key.rstrip("_").replace("_", "-")}="{attribute(value)}"' for key, value in attributes.items())
    return f"<{name}{given}/>" if words is None else f"<{name}{given}>{escape(str(words))}</{name}>"


def text(x, y, words, anchor="start", **attributes):
    """Words that begin, end or have their middle at a place."""
    return shape("text", words, x=x, y=y, text_anchor=anchor, **attributes)


def arrow(size, colour):
    """The head of the lines whose marker is `url(#arrow)`."""
    given = f'viewBox="0 0 8 8" refX="7" refY="4" markerWidth="{size}" markerHeight="{size}" orient="auto"'
    return f'<defs><marker id="arrow" {given}><path d="M0 0 8 4 0 8z" fill="{colour}"/></marker></defs>'


def picture(width, height, parts, title=None, style=""):
    """The picture, as the text of a file; its title stands in it too, where there is one."""
    head = f'<svg xmlns="http://www.w3.org/2000/svg" width="{width}" height="{height}" viewBox="0 0 {width} {height}">'
    front = [head, *([shape("title", title)] if title else []), f"<style>{style}</style>"]
    return "\n".join([*front, *parts, "</svg>\n"])
