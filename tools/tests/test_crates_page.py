"""crates/README.md: the pictures of blocks and of each block, on a small repository written by hand."""
import unittest

from shadowtools.gate import crates_page

BLOCKS = [("texts", {"words": [], "tables": ["words"]}),
          ("search", {"trees": ["words", "tables"], "finder": ["tables", "trees"]}),
          ("programs", {"tool": ["finder", "words"]})]
ARROWS = crates_page.reduced({crate: needs for _, crates in BLOCKS for crate, needs in crates.items()})


def lines_of(picture):
    first, kind, *lines, last = picture.splitlines()
    assert (first, kind, last) == ("```mermaid", "flowchart BT", "```"), picture
    return [line.strip() for line in lines]


class Pictures(unittest.TestCase):
    def test_an_arrow_that_follows_from_others_is_left_out(self):
        self.assertEqual(ARROWS, {"words": [], "tables": ["words"], "trees": ["tables"], "finder": ["trees"], "tool": ["finder"]})

    def test_the_picture_of_blocks_has_each_block_once_and_no_crate(self):
        self.assertEqual(lines_of(crates_page.picture_of_blocks(BLOCKS, ARROWS)), [
            'block0(["texts"])', 'block1(["search"])', 'block2(["programs"])', "block1 --> block0", "block2 --> block1"])

    def test_the_picture_of_a_block_has_its_crates_and_the_blocks_that_they_use(self):
        self.assertEqual(lines_of(crates_page.picture_of_block(1, BLOCKS, ARROWS)), [
            "trees", "finder", 'block0(["texts"])', "trees --> block0", "finder --> trees"])
        self.assertEqual(lines_of(crates_page.picture_of_block(0, BLOCKS, ARROWS)), ["words", "tables", "tables --> words"])

    def test_each_crate_of_the_repository_is_in_one_picture(self):
        blocks = crates_page.blocks()
        page = crates_page.page()
        for _, crates in blocks:
            for crate in crates:
                self.assertEqual(page.count(f"\n  {crate}\n"), 1, crate)
        self.assertEqual(page.count("```mermaid"), len(blocks) + 1)


if __name__ == "__main__":
    unittest.main()
