"""What players send: members that are taken, passed over or refused by name, and the response that an item result has."""
import base64
import binascii
import json

from names import MEMBERS, WORDS

LETTERS = "ABCDEFGHIJKLMNOPQRSTUVWXYZ"


class BadMessage(Exception):
    """A message cannot be taken; nothing was recorded. The text has why."""


def members_of(data, taken, ignored):
    """The members of a message that are taken, and the names of those that are passed over. Any other one is refused by its name."""
    try:
        found = json.loads(data) if data.strip() else {}
    except (ValueError, RecursionError) as error:
        raise BadMessage("the message is no JSON") from error
    if not isinstance(found, dict):
        raise BadMessage("the message is no object")
    taken = [name for name in taken if name not in ignored]
    unsupported = sorted(set(found) - set(taken) - ignored)
    if unsupported:
        raise BadMessage(f"unsupported: {', '.join(unsupported)}. It has no counterpart here; the setting `ignored` may name "
                         "it, so that it is passed over")
    return {name: found[name] for name in taken if name in found}, set(found) & ignored


def configuration_of(value):
    """The name of the examination of a section: Base64 of the JSON {"examination":NAME}."""
    try:
        found = json.loads(base64.b64decode(value, validate=True))
    except (TypeError, ValueError, binascii.Error, RecursionError) as error:
        raise BadMessage(f"{MEMBERS.section_configuration} is no Base64 of a JSON object") from error
    if not isinstance(found, dict) or set(found) != {"examination"} or not isinstance(found["examination"], str):
        raise BadMessage(f'{MEMBERS.section_configuration} is no JSON of the form {{"examination":NAME}}')
    return found["examination"]


def withheld_of(prior_data, numbers):
    """The items that a session leaves out, by number. It is the one kind of prior data that has a counterpart."""
    if not isinstance(prior_data, list) or not all(isinstance(one, dict) for one in prior_data):
        raise BadMessage(f"{MEMBERS.prior_data} is no list of objects")
    names = [name for one in prior_data for name in without_of(one)]
    unknown = [name for name in names if name not in numbers]
    if unknown:
        raise BadMessage(f"{WORDS.without}: no item has the ID {unknown[0]}")
    return sorted({numbers[name] for name in names})


def without_of(entry):
    if set(entry) != {MEMBERS.label, MEMBERS.value} or entry[MEMBERS.label] != WORDS.without:
        raise BadMessage(f"unsupported: {MEMBERS.prior_data} with the label {entry.get(MEMBERS.label)!r}; "
                         f"only {WORDS.without!r} has a counterpart")
    value = entry[MEMBERS.value].split() if isinstance(entry[MEMBERS.value], str) else entry[MEMBERS.value]
    if not isinstance(value, list) or not all(isinstance(one, str) for one in value):
        raise BadMessage(f"{WORDS.without} is no list of IDs")
    return value


def result_of(assessment_result, examination, item):
    """The response to the item that was given, from the one item result of a message."""
    if not isinstance(assessment_result, dict):
        raise BadMessage(f"{MEMBERS.assessment_result} is no object")
    results = assessment_result.get(MEMBERS.item_results)
    if not isinstance(results, list) or len(results) != 1 or not isinstance(results[0], dict):
        raise BadMessage(f"{MEMBERS.item_results} has not one result, of the item that was given")
    result, name = results[0], examination.names[item]
    if result.get(MEMBERS.identifier) != name:
        raise BadMessage(f"the result is not of the item {name}, which was given")
    found = {response_of(result, examination, item), score_of(result, examination, item)} - {None}
    if not found:
        raise BadMessage(f"the result of {name} has neither a response nor a score")
    if len(found) != 1:
        raise BadMessage(f"the result of {name} has a score that is not that of its response")
    return found.pop()


def variables(result, member):
    found = result.get(member, [])
    if not isinstance(found, list) or not all(isinstance(one, dict) for one in found):
        raise BadMessage(f"{member} is no list of objects")
    return found


def single(value, name):
    """The one value of a variable, which may be in a list."""
    found = value[0] if isinstance(value, list) and len(value) == 1 else value
    if isinstance(found, (list, dict)) or found is None or isinstance(found, bool):
        raise BadMessage(f"the result of {name} has not one value")
    return found


def response_of(result, examination, item):
    """The response that the chosen option is, by the item's text file; None if the result has no response variable."""
    found, name = variables(result, MEMBERS.response_variables), examination.names[item]
    if not found or examination.texts is None:
        return None
    candidate = found[0].get(MEMBERS.candidate_response)
    if len(found) != 1 or not isinstance(candidate, dict):
        raise BadMessage(f"the result of {name} has not one response")
    value, text = str(single(candidate.get(MEMBERS.value), name)), examination.texts[item]
    options = [option.unescape() for option in text.options]
    letters = list(LETTERS[:len(options)])
    known = options if value in options else letters
    if known.count(value) != 1:
        raise BadMessage(f"the response to {name} is no option of it: {value!r}")
    return text.responses[known.index(value)]


def score_of(result, examination, item):
    """The whole category that the outcome SCORE has; None if the result has no such outcome."""
    found, name = variables(result, MEMBERS.outcome_variables), examination.names[item]
    scores = [one for one in found if one.get(MEMBERS.identifier) == WORDS.score]
    if not scores:
        return None
    value, categories = single(scores[0].get(MEMBERS.value), name), examination.documents.bank[item].categories
    try:
        number = float(value)
    except (TypeError, ValueError):
        number = -1.0
    if len(scores) != 1 or number not in range(categories):
        raise BadMessage(f"the score of {name} is no whole category from 0 to {categories - 1}: {value!r}")
    return int(number)
