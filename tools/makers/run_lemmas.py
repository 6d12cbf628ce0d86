"""What the makers of lemmas on the runs that tools/makers/due_case.py has written share."""
import sys

import array_case

SHARED = """use lib.Count.{ones}
use Rattle.bus_trace.specs.LineSet.{line_of}
use Rattle.bus_trace.specs.View.{union_below}
use Rattle.msg_grammar.specs.Messages.{form_out, form_in}
use Rattle.scenario.specs.Needs.{need_of, sent_of}"""

UNFOLDING = "unfolding need_of sent_of ones union_below line_of form_out form_in"


def write(comment, common, uses, lemma, law, statement):
    """One lemma for each scenario of the words: by this law, that this statement holds of its run. The first word is the module of
    crates/due_model/proofs in which the runs stand; in the statement R is a run, of the rows RS."""
    names = [array_case.name_of(scn, "_due") for scn in sys.argv[2:]]
    print(comment)
    print("use Rattle.std.proofs.Common.{%s}" % common)
    print(SHARED)
    print(uses)
    print("use Rattle.due_model.proofs.%s.{%s}" % (sys.argv[1], ", ".join("%s, %s_rows" % (name, name) for name in names)))
    for name in names:
        said = statement.replace("RS", "(onto %s_rows [])" % name).replace("R ", name + " ")
        print("\n%s_%s : %s" % (name, lemma, said))
        print("%s\n%s_%s = %s %s %s_rows refl" % (UNFOLDING, name, lemma, law, name, name))
