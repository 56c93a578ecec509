"""tests/definitions: what ten definitions reach is what is written by hand here, and what has to be
believed has the definitions that a reader looks for first. Only texts are compared, and no program
is run."""
from functools import partial

from lint.reached import tree_of

TITLE = "tests/definitions: what ten definitions reach, and what the main statements do"
TRIES = False
# The functions whose clauses say what the program promises.
ROOTS = """
    job_core::run_commands job_core::headline boxglue_program::run_script dvi_read::open
    boxglue_lib::program boxglue_c::boxglue_run""".split()
# By hand, from the texts of the definitions. Those that share a comment are one.
REACHED = {
    "IsBadness": "IsBadness IsRatioBadness badness_ratio IsNearest",
    "Fits": "Fits Within",
    "round_times": "round_times Fraction rounded nearest",
    "IsDimensionText": "IsDimensionText DimensionParts Sign LengthUnit fraction_digits parts_text sign_text fraction_text unit_text parts_value with_sign scaled_points "
    "of_points decimal_fraction nearest",
    "node_core::Rule": "Rule RuleSize Dimen",
    "Load": "Load",
    "is_discardable": "is_discardable ItemClass",
    "IsBreakList": "IsBreakList IsFalling top Problem BreakState Fitness LineCost",
    "is_paintable": "is_paintable is_size PaintOptionsView",
    "baseline_glue": "baseline_glue fits DimensionTooLarge Glue Order Dimen Params SplitParams IntParameter FirstLines",
}
# Among what has to be believed: the machine, the order of ties between lists of breaks, what a job
# counts, the files, and a host.
BELIEVED = "Machine IsDone WasSent key least_path is_not_after Load IsFile marks_of_page file_widths badness_of WasRun HasRun HandsOverRun HostView IsDviFault".split()
# The clauses that say what a file is without the rules by which this writer draws and lays out one.
HEADLINE = """
    job_core::run_commands.headline boxglue_program::run_script.answers
    boxglue_program::run_script.left boxglue_program::run_memory.answers
    boxglue_program::run_memory.left boxglue_lib::program.ran boxglue_c::boxglue_run.done""".split()
# Where these rules are: the crates that draw, choose registers and write, and the layout and the
# spellings of dvi_ops.
WRITER = {"ship_core", "move_core", "dvi_write"}, {"Layout", "Spelling", "Runs"}
# What only other contracts reach, by a function whose contract does.
ELSEWHERE = {
    "IsStop": "break_core::active_breaks",
    "IsBreakList": "break_core::breaks",
    "IsFileIn": "tfm_core::read",
}


def roots(tree):
    """What the clauses of these functions speak of."""
    return [it for given in ROOTS for it in tree.by_function(*given.split("::"))]


def names_of(found):
    """All names of what was found."""
    return [name for definition in found.values() for name in definition.names]


def reached(tree, given):
    """What is wrong with what a definition reaches."""
    found, wanted = {*names_of(tree.order(tree.by_name(given)))}, {*REACHED[given].split()}
    if found == wanted:
        return None
    return f"{given}: not by hand {sorted(found - wanted)}, by hand alone {sorted(wanted - found)}"


def believed(tree):
    """What is wrong with what has to be believed."""
    found = tree.order(roots(tree))
    lost = [it for it in BELIEVED if it not in names_of(found)]
    data = [str(it) for it in found if it.module in ("Examples", "Known")]
    bare = [
        str(it) for it, definition in found.items() if not it.is_type and not definition.comment
    ]
    return (
        f"it lacks {lost}"
        if lost
        else f"it has test data: {data}"
        if data
        else f"no comment: {bare}"
        if bare
        else None
    )


def headline(tree):
    """What the clauses of the headline name of the writer's rules."""
    crates, modules = WRITER
    found = {given: tree.order(tree.by_name(given)) for given in HEADLINE}
    named = [
        f"{given} names {it}"
        for given, names in found.items()
        for it in names
        if it.crate in crates or (it.crate == "dvi_ops" and it.module in modules)
    ]
    lost = [given for given, names in found.items() if "IsFile" not in names_of(names)]
    return "; ".join(named) or (f"without the definition of a file: {lost}" if lost else None)


def elsewhere(tree):
    """Names that the contracts of these functions do not reach."""
    lost = [
        name
        for name, given in ELSEWHERE.items()
        if name not in names_of(tree.order(tree.by_name(given)))
    ]
    return f"not reached: {lost}" if lost else None


def cases(_programs, root):
    """A case for each definition, and those for statements."""
    tree = tree_of(root)
    for given in REACHED:
        yield given, partial(reached, tree, given)
    yield "what has to be believed", partial(believed, tree)
    yield "what the headline names", partial(headline, tree)
    yield "what other contracts reach", partial(elsewhere, tree)
