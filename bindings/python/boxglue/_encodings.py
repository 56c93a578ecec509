"""The characters of fonts: which code a font of an encoding has for a character of Unicode."""
from __future__ import annotations

from collections.abc import Iterator, Mapping
from typing import TypeAlias

from ._public import public

# An encoding: the code of each character that its fonts have.
Encoding: TypeAlias = "Mapping[str, int]"

# The characters that have their code of ASCII in both. TeX's fonts show an apostrophe as the right
# quote.
_ASCII = "!#$%&()*+,-./0123456789:;=?@ABCDEFGHIJKLMNOPQRSTUVWXYZ[]abcdefghijklmnopqrstuvwxyz'`"
# Characters in the order of their codes, by the code of the first one.
_OT1 = {
    0: "ΓΔΘΛΞΠΣΥΦΨΩﬀﬁﬂﬃﬄıȷˋ´ˇ˘¯˚¸ßæœøÆŒØ",
    34: "”",
    39: "’",
    60: "¡",
    62: "¿",
    92: "“",
    94: "ˆ˙",
    96: "‘",
    123: "–—˝˜¨",
}
_T1 = {
    0: "ˋ´ˆ˜¨˝˚ˇ˘¯˙¸˛‚‹›“”„«»–—",
    25: "ıȷﬀﬁﬂﬃﬄ␣",
    34: '"',
    39: "’",
    60: "<",
    62: ">",
    92: "\\",
    94: "^_",
    96: "‘",
    123: "{|}~",
    128: "ĂĄĆČĎĚĘĞĹĽŁŃŇŊŐŔŘŚŠŞŤŢŰŮŸŹŽŻĲİđ§ăąćčďěęğĺľłńňŋőŕřśšşťţűůÿźžżĳ¡¿£",
    192: "ÀÁÂÃÄÅÆÇÈÉÊËÌÍÎÏÐÑÒÓÔÕÖŒØÙÚÛÜÝÞẞàáâãäåæçèéêëìíîïðñòóôõöœøùúûüýþß",
}
_TS1 = {
    24: "←→",
    39: "'",
    47: "⁄",
    61: "−",
    77: "℧",
    87: "Ω",
    94: "↑↓",
    96: "`",
    110: "♪",
    132: "†‡‖‰•",
    140: "ƒ",
    142: "₩",
    151: "™‱",
    154: "฿№",
    157: "℮◦℠",
    162: "¢£¤¥¦§¨©ª🄯¬℗®¯°±²³´µ¶·※¹º√¼½¾€",
    214: "×",
    246: "÷",
}
_OML = {
    0: "ΓΔΘΛΞΠΣΥΦΨΩαβγδϵζηθικλμνξπρστυϕχψωεϑϖϱςφ",
    60: "<",
    62: ">⋆∂",
    91: "♭♮♯",
    96: "ℓ",
    111: "ο",
}
_OMS = {
    0: "−·×∗÷⋄±∓⊕⊖⊗⊘⊙◯∘•≍≡⊆⊇≤≥⪯⪰∼≈⊂⊃≪≫≺≻←→↑↓↔↗↘≃⇐⇒⇑⇓⇔↖↙∝′∞∈∋△▽",
    55: "↦∀∃¬∅ℜℑ⊤⊥",
    91: "∪∩⊎∧∨⊢⊣⌊⌋⌈⌉{}⟨⟩|‖↕⇕\\",
    114: "∇∫",
    120: "§†‡¶♣♦♥♠",
}


@public
class FontEncoding(Mapping[str, int]):
    """An encoding of fonts: the code of each character of Unicode that its fonts have.

    `OT1` and `T1` have the codes of TeX's text fonts. `TS1`, `OMS` and `OML` have the codes of its
    symbol fonts. `text` accepts every mapping, such as `{**boxglue.T1, "…": 0x85}`.
    """

    __slots__ = "name", "_codes"

    def __init__(self, name: str, codes: Mapping[str, int]) -> None:
        self.name, self._codes = name, dict(codes)

    def __getitem__(self, character: str) -> int:
        return self._codes[character]

    def __iter__(self) -> Iterator[str]:
        return iter(self._codes)

    def __len__(self) -> int:
        return len(self._codes)

    def __repr__(self) -> str:
        return f"<the encoding {self.name}>"


def _encoding(name: str, runs: Mapping[int, str], same: str = "", **more: int) -> FontEncoding:
    """An encoding of runs, of characters that have their code of ASCII, and of more."""
    of_runs = {it: code for first, run in runs.items() for code, it in enumerate(run, first)}
    return FontEncoding(name, {**{it: ord(it) for it in same}, **of_runs, **more})


# The encoding of scripts.
ASCII = FontEncoding("ASCII", {chr(it): it for it in range(33, 127)})
# The encoding of TeX's own fonts, such as cmr10. It has no accented letters, and shows a double
# quote of ASCII as the right one.
OT1 = _encoding("OT1", _OT1, _ASCII, **{'"': 34})
# The Cork encoding of fonts such as ecrm1000 and ec-lmr10. The Croatian Đ is its Ð.
T1 = _encoding("T1", _T1, _ASCII, Đ=208)
# Three tables: symbols for texts in fonts such as ts1-lmr10, symbols in TeX's own font cmsy10, and
# Greek letters and signs in cmmi10.
TS1, OMS, OML = _encoding("TS1", _TS1), _encoding("OMS", _OMS), _encoding("OML", _OML)
