"""A chart as an SVG that follows the page's light or dark colours."""

from xml.sax.saxutils import escape

# Each colour on a light page, and on a dark one.
GROUND, INK = ("#ffffff", "#0d1117"), ("#1f2328", "#e6edf3")
SERVERS = {
    "garnetd": ("#1f5fa8", "#58a6ff"),
    "before": ("#9cc3ec", "#2f5f96"),
    "redis": ("#b9bec6", "#7d8590"),
    "memcached": ("#d9a441", "#b8860b"),
}


def style():
    """The rules that colour the ground, the texts, and the bars of each server."""
    def rules(at):
        bars = "".join(f".{name}{{fill:{colours[at]}}}" for name, colours in SERVERS.items())
        return f".ground{{fill:{GROUND[at]}}}text{{fill:{INK[at]}}}{bars}"
    return f"<style>{rules(0)}@media(prefers-color-scheme:dark){{{rules(1)}}}</style>"


class Drawing:
    """The parts of an SVG, and how large it is."""

    def __init__(self, width):
        self.width, self.height, self.parts = width, 0, []

    def text(self, x, y, text, size=12, anchor="start", weight="normal"):
        how = f'font-size="{size}" text-anchor="{anchor}" font-weight="{weight}"'
        self.parts.append(f'<text x="{x:.1f}" y="{y:.1f}" {how}>{escape(text)}</text>')

    def bar(self, x, y, width, height, server):
        self.parts.append(f'<rect x="{x:.1f}" y="{y:.1f}" width="{width:.1f}" height="{height:.1f}" class="{server.lower()}"/>')

    def save(self, file):
        with open(file, "w", encoding="utf-8") as svg:
            svg.write(f'<svg xmlns="http://www.w3.org/2000/svg" width="{self.width}" height="{self.height}" '
                      f'viewBox="0 0 {self.width} {self.height}" font-family="sans-serif">\n{style()}\n'
                      '<rect width="100%" height="100%" class="ground"/>\n' + "\n".join(self.parts) + "\n</svg>\n")
