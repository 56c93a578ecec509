"""The paragraphs of the tests of hyphens: 600 texts by a fixed rule, with hyphens and dashes in
words, and with discretionaries. Braces have the three parts of one: {k-|k|ck} is the
\\discretionary{k-}{k}{ck} of TeX."""
import re

COUNT = 600
# In points. A paragraph is set in each width at each tolerance.
WIDTHS, TOLERANCES = (120, 180, 250, 345), (200, 9999)
# Every third paragraph begins as after glue, so its first word may be hyphenated.
GLUE_FIRST = 3
FREQUENT = "the of and to in a that is was it for with as his on be at by had not are but from which have they one were their there would when what about".split()
WORDS = """
    other into after before people between another without different country question morning office difficult himself nothing something government afternoon
    always against certain general history important interest language mountain necessary particular possible purpose remember several sufficient together
    understand workshop printer paragraph figure reflection affair village weather journey kitchen yesterday everything conversation experience considerable
    opportunity neighbourhood circumstances approximately fifteen fjord garden letters answered believed children carefully followed wondered company railway
    library station voyage avenue wavering quickly explained effect efficient official officials traffic coffee waffle shuffling baffled affluent offline selfish
    wonderful kindness careless suddenly settlement arrangement correspondence manufacturer agriculture architecture temperature literature signature adventure
    departure furniture multiplication transportation illumination examination determination imagination organization proportion exception collection direction
    instruction production protection satisfaction contradiction development environment entertainment announcement establishment advertisement improvement
    measurement statement equipment responsibility possibility personality electricity university community security authority majority property quality
    everybody somebody grandmother butterfly waterfall newspaper typewriter bookbinder watchmaker lighthouse wheelbarrow blacksmith shepherd fisherman
    Rotterdam Edinburgh Montevideo Reykjavik Alexandria Wellington Vancouver Johannesburg Yarmouth Toronto Wittenberg Versailles
""".split()
SPECIAL = """
    well-known twenty-one mother-in-law so-called half-forgotten north-western book-keeping re-entered far-off light-coloured Austro-Hungarian T-shirts long-wavelength
    page---and waited--without pages--or Dru{k-|k|ck}er Zu{k-|k|ck}erbä{||}ckerei back{-||}ground and/{||}or Be{t-|t|tt}uch water{-||}proof {(|)|}bracketed key{-||}{-||}board
    eigh{t-|t|t}een (1997), (perhaps), wasn't didn't neighbour's 1,250 3.14159 Section:Paragraph (difficulty) `fifty' afternoon's,which semi{-||}detached--house
""".replace(
    "bä", "ba"
).split()


class Numbers:
    """Numbers by a linear congruence, the same everywhere."""

    def __init__(self, seed):
        self.state = seed

    def below(self, bound):
        self.state = (self.state * 6364136223846793005 + 1442695040888963407) % 2**64
        return (self.state >> 33) % bound

    def pick(self, values):
        return values[self.below(len(values))]


def word_of(numbers):
    """A word: in four of nine a frequent one, in one of twenty a special one."""
    if numbers.below(20) == 0:
        return numbers.pick(SPECIAL)
    return numbers.pick(FREQUENT if numbers.below(9) < 4 else WORDS)


def text_of(numbers):
    """A paragraph of 18 to 65 words, in sentences with some commas."""
    words, left = [], 0
    count = 18 + numbers.below(48)
    for at in range(count):
        word = word_of(numbers)
        if left == 0:
            left = 5 + numbers.below(16)
            word = word[0].upper() + word[1:]
        left -= 1
        if left == 0 or at == count - 1:
            word += "."
        elif numbers.below(12) == 0:
            word += numbers.pick(",;:,,")
        words.append(word)
    return " ".join(words)


def paragraphs():
    """The texts by their names."""
    numbers = Numbers(1848)
    return {f"p{at:03}": text_of(numbers) for at in range(1, COUNT + 1)}


def glue_first(name):
    """Whether a paragraph begins as after glue."""
    return int(name[1:]) % GLUE_FIRST == 0


def settings():
    """The width and the tolerance of each setting of a paragraph."""
    return [(width, tolerance) for width in WIDTHS for tolerance in TOLERANCES]


def parts(text):
    """The texts and the discretionaries of a paragraph; each of these is three texts."""
    found = re.split(r"\{([^|{}]*)\|([^|{}]*)\|([^|{}]*)\}", text)
    for at in range(0, len(found), 4):
        if found[at]:
            yield found[at]
        if at + 1 < len(found):
            yield tuple(found[at + 1 : at + 4])
