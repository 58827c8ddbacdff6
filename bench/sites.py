#!/usr/bin/env python3
"""Measures how the time of `cssmin min` grows on sheets like those of large sites.

usage: python3 bench/sites.py [--seconds N] [--kind WORD] PROGRAM [OPTION..]

It makes each kind of sheet in three sizes, always the same ones, and prints what `bench/slow.py` prints.
"""

import random

import growth

SPACES = "0 px 0.5 1 1.5 2 2.5 3 3.5 4 5 6 7 8 9 10 11 12 14 16 20 24 28 32 36 40 44 48 52 56 60 64 72 80 96".split()
COLOURS = (
    "slate gray zinc neutral stone red orange amber yellow lime green emerald teal cyan sky blue indigo violet purple fuchsia pink rose"
).split()
SHADES = [50, 100, 200, 300, 400, 500, 600, 700, 800, 900, 950]
SPACED = [
    ("m", ["margin"]),
    ("mx", ["margin-left", "margin-right"]),
    ("my", ["margin-top", "margin-bottom"]),
    ("mt", ["margin-top"]),
    ("mr", ["margin-right"]),
    ("mb", ["margin-bottom"]),
    ("ml", ["margin-left"]),
    ("p", ["padding"]),
    ("px", ["padding-left", "padding-right"]),
    ("py", ["padding-top", "padding-bottom"]),
    ("pt", ["padding-top"]),
    ("pr", ["padding-right"]),
    ("pb", ["padding-bottom"]),
    ("pl", ["padding-left"]),
    ("w", ["width"]),
    ("h", ["height"]),
    ("min-w", ["min-width"]),
    ("gap", ["gap"]),
    ("top", ["top"]),
    ("left", ["left"]),
    ("right", ["right"]),
    ("bottom", ["bottom"]),
]
COMMON = (
    "display:flex;display:block;display:none;display:inline-block;align-items:center;justify-content:space-between;flex-direction:column;"
    "position:relative;position:absolute;overflow:hidden;margin:0;padding:0;width:100%;height:100%;top:0;left:0;right:0;bottom:0;"
    "cursor:pointer;text-align:center;font-weight:700;border:0;border-radius:4px;box-sizing:border-box;list-style:none;color:#fff;"
    "background:none;text-decoration:none;white-space:nowrap;opacity:0;line-height:1.5;flex:1;z-index:1;outline:0;"
    "text-transform:uppercase;vertical-align:middle;pointer-events:none;transition:all .3s ease;background-color:#fff;color:inherit"
).split(";")
TOKENS = "keyword string comment number literal built_in title attr meta tag name symbol bullet link type regexp doctag section".split()


def space(step):
    """The length of a step of spacing."""
    if step == "px":
        return "1px"
    return "0px" if step == "0" else f"{float(step) / 4:g}rem"


def utility_classes():
    """The utility classes without variants, each with its declarations."""
    classes = [
        (f"{short}-{step}".replace(".", "\\."), ";".join(f"{name}:{space(step)}" for name in names))
        for short, names in SPACED
        for step in SPACES
    ]
    drawn = random.Random(1)
    for colour in COLOURS:
        for shade in SHADES:
            rgb = " ".join(str(drawn.randrange(256)) for _ in range(3))
            for short, name in (("text", "color"), ("bg", "background-color"), ("border", "border-color")):
                opacity = f"--tw-{short}-opacity"
                classes.append((f"{short}-{colour}-{shade}", f"{opacity}:1;{name}:rgb({rgb} / var({opacity}))"))
    for shown in "block inline flex grid none inline-block table contents".split():
        classes.append((f"d-{shown}", f"display:{shown}"))
    for count in range(1, 13):
        classes.append((f"col-span-{count}", f"grid-column:span {count} / span {count}"))
    return classes


def utilities(count):
    """Utility classes with one to two declarations and their variants."""
    classes = utility_classes()
    heads = [".{}", ".hover\\:{}:hover", ".focus\\:{}:focus", ".active\\:{}:active", ".group:hover .group-hover\\:{}"]
    heads += [f".v{number}\\:{{}}" for number in range(count // len(classes) + 1)]
    rules = (f"{head.format(name)}{{{declarations}}}" for head in heads for name, declarations in classes)
    return "".join(rule for rule, _ in zip(rules, range(count)))


def utilities_in_media(count):
    """Utility classes, and for each of seven widths all of them again in an `@media` block."""
    classes = utility_classes()[: count // 8]
    text = ""
    for width in range(8):
        prefix = f"b{width}\\:" if width else ""
        rules = "".join(f".{prefix}{name}{{{declarations}}}" for name, declarations in classes)
        text += f"@media (min-width:{200 * width}px){{{rules}}}" if width else rules
    return text


def blocks_and_elements(count):
    """Rules named by BEM, with 1 to 7 declarations of which 40 are common."""
    drawn = random.Random(2)
    ends = ["", "__title", "__body", "__item", "__item--active", "__link", "__link:hover", "--large"]
    own = ["font-size", "margin-top", "padding-left", "width", "height", "max-width", "margin-bottom"]
    text = []
    for number in range(count):
        declarations = drawn.sample(COMMON, drawn.randrange(1, 6))
        for _ in range(drawn.randrange(0, 3)):
            declarations.append(f"{drawn.choice(own)}:{drawn.randrange(1, 60)}px")
        text.append(f".block{number // 8}{ends[number % 8]}{{{';'.join(declarations)}}}")
    return "".join(text)


def components(count):
    """Components of a design system: long lists of declarations, many of them common."""
    drawn = random.Random(3)
    lists = [drawn.sample(COMMON, 12) for _ in range(20)]
    text = []
    for number in range(count):
        declarations = list(lists[drawn.randrange(20)])
        drawn.shuffle(declarations)
        declarations = declarations[:10]
        declarations += [f"color:#{drawn.randrange(1 << 24):06x}", f"background-color:#{drawn.randrange(200):06x}"]
        text.append(f".ds-comp-{number}{{{';'.join(declarations)}}}")
    return "".join(text)


def generated_classes(count):
    """Classes with generated names, as CSS in JavaScript has them: common declarations in one order."""
    drawn = random.Random(4)
    text = []
    for _ in range(count):
        chosen = sorted(drawn.sample(range(len(COMMON)), drawn.randrange(2, 9)))
        name = f".sc-{drawn.randrange(1 << 24):06x}{drawn.choice(['', '', ':hover', ' > a', '::before'])}"
        text.append(f"{name}{{{';'.join(COMMON[number] for number in chosen)}}}")
    return "".join(text)


def icons(count):
    """An icon font: one declaration for each icon."""
    each = "".join(f'.fa-icon-{number}:before{{content:"\\{0xE000 + number % 2000:x}"}}' for number in range(count))
    return f".fa{{display:inline-block;font:normal 14px/1 FontAwesome}}{each}"


def sprites(count):
    """Places in one picture, all of one size."""
    each = "".join(
        f".sp-{number}{{background-position:-{number % 64 * 16}px -{number // 64 * 16}px;width:16px;height:16px}}" for number in range(count)
    )
    return f".sp{{background:url(s.png) no-repeat;display:inline-block}}{each}"


def themes(count):
    """Themes of a code highlighter, one after the other."""
    drawn = random.Random(5)
    colours = [f"#{drawn.randrange(1 << 24):06x}" for _ in range(64)]
    ends = ["", ";font-weight:700", ";font-style:italic"]
    text = [
        f".theme-{number // len(TOKENS)} .hljs-{TOKENS[number % len(TOKENS)]}{{color:{drawn.choice(colours)}{drawn.choice(ends)}}}"
        for number in range(count)
    ]
    return "".join(text)


def variables(count):
    """One rule of custom properties."""
    return f":root{{{';'.join(f'--color-{number}:#{number * 7919 % (1 << 24):06x}' for number in range(count))}}}"


def one_list(count):
    """One list of selectors for what all of them have, and a rule for each of them."""
    names = [f".icon-{number}" for number in range(count)]
    each = "".join(f"{name}{{background-position:0 -{number * 16}px}}" for number, name in enumerate(names))
    return f"{','.join(names)}{{display:inline-block}}{each}"


def scoped(count):
    """Rules of components with an attribute each, as Vue makes them."""
    drawn = random.Random(6)
    names = ["wrap", "title", "item", "btn", "row", "col", "card", "icon"]
    text = []
    for number in range(count):
        declarations = drawn.sample(COMMON, drawn.randrange(1, 5))
        text.append(f".{drawn.choice(names)}[data-v-{number // 6 * 7919 % (1 << 24):06x}]{{{';'.join(declarations)}}}")
    return "".join(text)


KINDS = {
    "utilities": (utilities, (4_000, 8_000, 16_000)),
    "utilities in @media blocks": (utilities_in_media, (4_000, 8_000, 12_000)),
    "rules named by BEM": (blocks_and_elements, (1_000, 2_000, 4_000)),
    "components of a design system": (components, (250, 500, 1_000)),
    "generated classes": (generated_classes, (500, 1_000, 2_000)),
    "icons": (icons, (4_000, 8_000, 16_000)),
    "sprites": (sprites, (2_000, 4_000, 8_000)),
    "themes": (themes, (2_000, 4_000, 8_000)),
    "variables": (variables, (8_000, 16_000, 32_000)),
    "one list of selectors": (one_list, (2_000, 4_000, 8_000)),
    "scoped rules": (scoped, (1_000, 2_000, 4_000)),
}

growth.measure_all(__doc__, KINDS)
