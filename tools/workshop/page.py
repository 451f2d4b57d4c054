"""A picture with its report as one page of HTML, which needs no other file."""

from __future__ import annotations

from xml.sax.saxutils import escape

STYLE = """
body { margin: 1rem auto; max-width: 1188px; font-family: DejaVu Sans, Verdana, Arial, sans-serif; }
body { background: white; color: black; }
svg { width: 100%; height: auto; max-height: calc(100vh - 2rem); }
pre { font-size: 13px; overflow-x: auto; }
@page { size: A4 landscape; margin: 0; }
@media print {
  body { margin: 0; max-width: none; }
  svg { width: 297mm; height: 209mm; max-height: none; }
  pre { margin: 12mm; font-size: 9pt; white-space: pre-wrap; page-break-before: always; }
}
"""


def html(picture: str, report: str, title: str) -> str:
    """The page; on paper the picture is the first sheet and the report the next."""
    head = f'<head><meta charset="utf-8"><title>{escape(title)}</title><style>{STYLE}</style></head>'
    return f'<!DOCTYPE html>\n<html lang="en">{head}\n<body>\n{picture}<pre>{escape(report)}</pre>\n</body></html>\n'
