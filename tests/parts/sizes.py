"""Large inputs, and the edges of input and output. Large inputs are made when a case is run
(large_inputs.py); nothing large is in the repository."""
from functools import partial

from common.long_runs import done
from common.part import in_turn
from models import large_inputs

TITLE = "inputs at size: long scripts, pages, paragraphs, files and answers, and slow pipes"
NEEDS_PROGRAM = True
SPLIT = in_turn(4)
WEIGHT = 2

WORKS = {
    "a_script_of_300_kilobytes": large_inputs.long_script,
    "the_same_line_by_line": partial(large_inputs.long_script, "lines"),
    "the_same_byte_by_byte": partial(large_inputs.long_script, "bytes"),
    "a_page_of_8000_rules": large_inputs.page_of_rules,
    "answers_above_2_mebibytes": large_inputs.long_answers,
    "a_page_of_160005_instructions": large_inputs.page_of_instructions,
    "a_paragraph_of_65536_items": large_inputs.long_paragraph,
    "a_paragraph_of_8192_lines": large_inputs.most_lines,
    "splits_of_65536_items": large_inputs.long_splits,
    "a_bitmap_of_10000_by_10000": large_inputs.large_bitmap,
    "a_file_of_131072_pages": large_inputs.many_pages,
    "a_job_of_65535_pages": large_inputs.most_pages,
    "a_job_of_16777216_nodes": large_inputs.most_nodes,
    "font_numbers_256_and_70000": large_inputs.high_font_numbers,
    "256_fonts": large_inputs.all_slots,
    "fonts_of_a_file_with_1000": large_inputs.many_definitions,
    "fonts_of_a_file_above_64_kibibytes": large_inputs.fonts_of_rules,
    "300_words": large_inputs.many_words,
    "texts_that_are_too_long": large_inputs.long_texts,
    "texts_of_20_megabytes": large_inputs.longest_texts,
    "a_page_of_262144_characters": large_inputs.many_characters,
    "a_listing_of_500000_glyphs": large_inputs.long_listing,
    "a_painted_page_of_2000000_glyphs": large_inputs.glyphs_between_rules,
    "a_font_file_of_130_kilobytes": large_inputs.large_font,
    "a_file_of_268435456_bytes": large_inputs.greatest_file,
    "a_file_of_268435457_bytes": large_inputs.too_large_file,
    "slow_pipes": large_inputs.slow_pipes,
}


def call_of(make, programs):
    """The call of a case: its inputs are made when it runs."""
    return lambda: done(programs, make())


def cases(programs, root):
    """The cases, by name."""
    return [(name, call_of(make, programs)) for name, make in WORKS.items()]
