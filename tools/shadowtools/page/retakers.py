"""The section on examinees that sit twice: what the two tests of a person share, and how well the second measures."""
from shadowtools.agency.drivers import WITHOUT_FORM
from shadowtools.page.parts import Facts, Note, Section, Table
from shadowtools.page.study import Study, fixed, signed

HEAD = ["Sitting, of the same persons", "Tests", "Bias (EAP)", "RMSE (EAP)", "RMSE (mode)", "Mean posterior SD", "Forms proved best",
        "Eligibility set aside"]
REFUSED = {"no-form": "No form is left", "none-found": "No form was found within the base budget"}


def section(study: Study) -> Section:
    found = study.retakes
    rows = [("Examinees that sat twice", f"{found.number:,} of {len(study.sample):,}"),
            ("Second sittings begun", f"{len(found.pairs):,}, " + ("without the items of the first" if found.has_lists else "with no list"))]
    rows += [(REFUSED[word], f"{found.refused.get(word, 0):,}") for word in WITHOUT_FORM]
    if not found.pairs:
        return Section("retakers", "Second sittings", [Facts(rows)])
    common = found.common()
    rows += [("Overlap of the two tests of a person, mean and greatest", f"{fixed(common.mean())}, {fixed(common.max())}"),
             ("Rules broken in second tests", f"{len(study.broken_second)}")]
    return Section("retakers", "Second sittings", [Facts(rows), table(study), Note(
        "The overlap is the share of the second test's items that the person's first test had too. Both rows of the table are of the "
        "persons whose second sitting was begun. The answers of a second sitting are drawn anew by the same ability: nobody remembers "
        "an item, or has learnt. Second sittings count in no other section.")])


def table(study: Study) -> Table:
    """A row for each of the two sittings."""
    rows = []
    for place, name in enumerate(("first", "second")):
        one = study.retakes.sitting(study.examination, place)
        rows.append([name, f"{len(study.retakes.pairs):,}", signed(one.bias), fixed(one.rmse), fixed(one.rmse_of_mode), fixed(one.posterior_sd),
                     f"{one.proved:,} of {one.forms:,}", f"{one.aside:,}"])
    return Table(HEAD, rows)
