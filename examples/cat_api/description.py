"""The routes of the adapter as OpenAPI 3, made from the one file that has the names of the standard."""
import json

from names import BASE, CODES, ERRORS, MEMBERS, ROUTES, WORDS

REMARK = ("An adapter after CAT API 1.0, written from memory and not compared with the published text. Members that have no counterpart are "
          "refused by name, or passed over where the settings of the adapter name them.")


def text(remark):
    return {"type": "string", "description": remark}


def shape(required, **members):
    return {"type": "object", "required": required, "properties": {getattr(MEMBERS, name): value for name, value in members.items()}}


def listed(of):
    return {"type": "array", "items": of}


def reference(name):
    return {"$ref": f"#/components/schemas/{name}"}


VALUES = listed({"description": "one value"})
SCHEMAS = {
    "Configuration": shape([MEMBERS.section_configuration], section_configuration=text('Base64 of {"examination":NAME}')),
    "SectionIdentifier": shape([MEMBERS.section_identifier], section_identifier=text("of a section")),
    "Items": shape([MEMBERS.item_identifiers], item_identifiers=listed(text("of an item"))),
    "Section": shape([MEMBERS.items, MEMBERS.section_configuration], items=reference("Items"), section_configuration=text("as it was sent")),
    "NextItems": shape([MEMBERS.item_identifiers, MEMBERS.stage_length], item_identifiers=listed(text("of the item to give; none at the end")),
                       stage_length={"type": "integer", "minimum": 0, "maximum": 1}),
    "PriorData": shape([MEMBERS.label, MEMBERS.value], label={"type": "string", "enum": [WORDS.without]},
                       value={"description": "the items that the session leaves out: a list of identifiers, or a text that has them with spaces"}),
    "Begin": shape([], prior_data=listed(reference("PriorData"))),
    "Begun": shape([MEMBERS.session_identifier, MEMBERS.next_items, MEMBERS.session_state], session_identifier=text("of a session"),
                   next_items=reference("NextItems"), session_state=text("is sent back with the results"), assessment_result=reference("Outcome")),
    "CandidateResponse": shape([MEMBERS.value], value=VALUES),
    "ResponseVariable": shape([MEMBERS.identifier, MEMBERS.candidate_response], identifier=text("of the variable"), cardinality=text(WORDS.single),
                              base_type=text("of the value"), candidate_response=reference("CandidateResponse")),
    "OutcomeVariable": shape([MEMBERS.identifier, MEMBERS.value], identifier=text(f"{WORDS.score}; in replies {WORDS.theta}, {WORDS.error}, {WORDS.completion}"),
                             cardinality=text(WORDS.single), base_type=text("of the value"), value=VALUES),
    "ItemResult": shape([MEMBERS.identifier], identifier=text("of the item that was given"), sequence_index={"type": "integer"}, datestamp=text("not looked at"),
                        session_status=text("not looked at"), response_variables=listed(reference("ResponseVariable")),
                        outcome_variables=listed(reference("OutcomeVariable"))),
    "AssessmentResult": shape([MEMBERS.item_results], item_results=listed(reference("ItemResult"))),
    "Results": shape([MEMBERS.assessment_result, MEMBERS.session_state], assessment_result=reference("AssessmentResult"),
                     session_state=text("of the reply that gave the item")),
    "TestResult": shape([MEMBERS.identifier, MEMBERS.outcome_variables], identifier=text("of the session"), outcome_variables=listed(reference("OutcomeVariable"))),
    "Outcome": shape([MEMBERS.test_result], test_result=reference("TestResult")),
    "Answered": shape([MEMBERS.next_items, MEMBERS.session_state], next_items=reference("NextItems"), session_state=text("is sent back with the next results"),
                      assessment_result=reference("Outcome")),
    "Failure": {"type": "object", "required": [ERRORS.code_major, ERRORS.severity, ERRORS.description, ERRORS.code_minor], "properties": {
        ERRORS.code_major: {"type": "string", "enum": [ERRORS.failure]}, ERRORS.severity: {"type": "string", "enum": [ERRORS.error]},
        ERRORS.description: {"type": "string"}, ERRORS.code_minor: {"type": "object", "required": [ERRORS.code_minor_field], "properties": {
            ERRORS.code_minor_field: listed({"type": "object", "required": [ERRORS.field_name, ERRORS.field_value], "properties": {
                ERRORS.field_name: {"type": "string"}, ERRORS.field_value: {"type": "string", "enum": sorted(set(CODES.values()))}}})}}}},
}


def content(name):
    return {"content": {"application/json": {"schema": reference(name)}}}


def operation(name, summary, status, reply=None, body=None):
    replies = {str(status): {"description": "done", **(content(reply) if reply else {})}}
    replies |= {str(code): {"description": CODES[code], **content("Failure")} for code in (400, 401, 404, 500, 503)}
    asked = {"requestBody": {"required": name != "createSession", **content(body)}} if body else {}
    return {"operationId": name, "summary": summary, **asked, "responses": replies}


def parameters(route):
    return [{"name": part.strip("{}"), "in": "path", "required": True, "schema": {"type": "string"}} for part in route.split("/") if part.startswith("{")]


def description():
    operations = {
        "sections": {"post": operation("createSection", "names an examination that runs already", 201, "SectionIdentifier", "Configuration")},
        "section": {"get": operation("getSection", "gives the items of the bank", 200, "Section"),
                    "delete": operation("deleteSection", "forgets the identifier; the examination goes on", 204)},
        "sessions": {"post": operation("createSession", "begins a test", 201, "Begun", "Begin")},
        "session": {"delete": operation("deleteSession", "closes a test before its end", 204)},
        "results": {"post": operation("postResults", "records the response to the item that was given", 200, "Answered", "Results")},
    }
    routes = {BASE + ROUTES[name]: {"parameters": parameters(ROUTES[name]), **found} for name, found in operations.items()}
    whole = {"openapi": "3.0.3", "info": {"title": "shadowd, after CAT API 1.0", "version": "1", "description": REMARK}, "security": [{"token": []}],
             "paths": routes, "components": {"securitySchemes": {"token": {"type": "http", "scheme": "bearer"}}, "schemas": SCHEMAS}}
    return json.dumps(whole, indent=2, ensure_ascii=False) + "\n"
