#!/usr/bin/env python3
"""Makes the texts of the two examples again: made-up items, each named as such, in place of those whose parameters the banks have.

usage: make_texts.py [FOLDER]      default: the folder texts beside this file

An item is a question of arithmetic whose right option is at the key that the blueprint counts. Items of the example with
passages ask about the made-up situation of their passage, and have an option for each category.
"""
import json
import os
import random
import sys

HERE = os.path.dirname(os.path.abspath(__file__))
REMARK = "# Made up for this example. It is not the item whose parameters the bank has.\n"
SITUATIONS = {
    "S1": ("The lift", "You stand in a lift with a large parcel. It stops between two floors, and a voice asks for patience. "
                       "The voice says so again after five minutes, and again after ten."),
    "S2": ("The library", "You have reserved a book and walk to the library to fetch it. A notice on the door says that it is "
                          "closed today for stocktaking. Nobody had told you on the telephone."),
    "S3": ("The printer", "You have ten minutes to print an application. The printer takes the first page, shows a red "
                          "light, and asks for a paper that the shop does not have."),
    "S4": ("The picnic", "You have carried a basket up a hill for an hour. At the top your companion finds that the food was "
                         "left at home, and that the basket has only plates in it."),
}
LIFT_TEXT = "A drawing of the lift between two floors: its upper half is at the third floor, its lower half at the second."
LIFT = """<svg xmlns="http://www.w3.org/2000/svg" viewBox="0 0 320 200" width="320" height="200">
<rect width="320" height="200" fill="#ffffff"/>
<g stroke="#1a1a1a" stroke-width="3" fill="none">
<path d="M110 5V195M210 5V195M20 100H110M210 100H300"/>
<rect x="120" y="50" width="80" height="100" fill="#d6e4f0"/>
<path d="M160 50V150M160 50V5"/>
</g>
<g font-family="sans-serif" font-size="28" fill="#1a1a1a"><text x="50" y="75">3</text><text x="50" y="150">2</text></g>
</svg>
"""
MODES = {"Want": "would you want to", "Do": "would you"}
TYPES = {"Curse": "mutter to yourself", "Scold": "tell somebody what you think of it", "Shout": "say it loudly"}


def quoted(text):
    return json.dumps(text, ensure_ascii=False)  # a string of JSON without control characters is one of TOML


def item_text(text, options, responses):
    listed = "".join(f"    {quoted(option)},\n" for option in options)
    return f"{REMARK}text = {quoted(text)}\noptions = [\n{listed}]\nresponses = {responses}\n"


def arithmetic(item, draw):
    """A multiplication, or for easy items a sum, with the result at the key and three results that are near."""
    attributes, hard = item["attributes"], item["parameters"][1] > 0
    left, right = draw.randint(12, 29) if hard else draw.randint(11, 69), draw.randint(3, 9) if hard else draw.randint(11, 29)
    result = left * right if hard else left + right
    wrong = [result + by for by in draw.sample([-20, -10, -2, -1, 1, 2, 10, 20], 3)]
    key = "ABCD".index(attributes["KEY"])
    options = [str(value) for value in wrong[:key] + [result] + wrong[key:]]
    sum_or_product = f"<math><mn>{left}</mn><mo>×</mo><mn>{right}</mn></math>" if hard else f"{left} plus {right}"
    text = f"Made-up item ({attributes['DOMAIN']}).\n\nHow much is {sum_or_product}?"
    return item_text(text, options, [int(place == key) for place in range(4)])


def attitude(item):
    attributes = item["attributes"]
    text = ("Made-up item.\n\n"
            f"In this situation, {MODES[attributes['MODE']]} {TYPES[attributes['TYPE']]}?")
    return item_text(text, ["No", "Perhaps", "Yes"], [0, 1, 2])


def write(folder, name, text):
    os.makedirs(folder, exist_ok=True)
    with open(os.path.join(folder, name), "w", encoding="utf-8") as file:
        file.write(text)


def main(folder):
    draw = random.Random(1)
    for example in ("knowledge", "aggression"):
        with open(os.path.join(HERE, "..", example, example + ".map.json"), encoding="utf-8") as file:
            found = json.load(file)
        for item in found["items"]:
            text = arithmetic(item, draw) if example == "knowledge" else attitude(item)
            write(os.path.join(folder, example), item["id"] + ".toml", text)
        for passage in found["passages"]:
            title, text = SITUATIONS[passage]
            whole = quoted("Made-up situation.\n\n" + text)
            shown = f"pictures = [{{ file = \"lift.svg\", text = {quoted(LIFT_TEXT)} }}]\n" if passage == "S1" else ""
            write(os.path.join(folder, example, "passages"), passage + ".toml", f"{REMARK}title = {quoted(title)}\ntext = {whole}\n{shown}")
    write(os.path.join(folder, "aggression", "passages"), "lift.svg", LIFT)


if __name__ == "__main__":
    if sys.argv[1:] == ["--help"]:
        sys.exit(print(__doc__))
    main(sys.argv[1] if len(sys.argv) > 1 else os.path.join(HERE, "texts"))
