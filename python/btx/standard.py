"""What the standard styles of TeX define: plain, abbrv, alpha and unsrt."""

from __future__ import annotations

__all__ = ["FIELDS", "TYPES"]

TYPES = "article book booklet conference inbook incollection inproceedings manual mastersthesis misc phdthesis proceedings techreport unpublished".split()
FIELDS = (
    "address annote author booktitle chapter crossref edition editor howpublished institution journal key month note number organization pages publisher school "
    "series title type volume year".split()
)
