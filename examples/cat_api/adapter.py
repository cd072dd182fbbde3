#!/usr/bin/env python3
"""An adapter for players that ask an engine after CAT API 1.0: a thin server over shadowd.

usage: adapter.py SETTINGS          serves
       adapter.py --openapi         prints the description of its routes, as OpenAPI

It is written from memory, and was not compared with the published text: names.toml has every name of the standard.
"""
import collections
import hmac
import json
import sys
import threading

import paths  # noqa: F401
from flask import Flask, Response, abort, request
from werkzeug.exceptions import HTTPException

import web
from adapter_settings import read_adapter_settings, secret_of
from description import description
from exam_server import Away, ExamServer, Refused
from item_texts import read_texts
from messages import BadMessage, configuration_of, members_of, result_of, withheld_of
from names import BASE, CODES, ERRORS, MEMBERS, ROUTES, WORDS
from readers import moments, posterior_sums, read_documents
from records import Records
from states import WrongState, read_state, written_state

LARGEST = 65536  # bytes of a message


class Unknown(Exception):
    """There is no such section or session."""


class Examination:
    """One that a server serves: its items by number and by ID, and its client."""

    def __init__(self, settings):
        self.documents = read_documents(settings.bank, settings.plan, settings.map, settings.program or None)
        token = secret_of(settings.server_token) if settings.server_token else ""
        self.server = ExamServer(settings.server, settings.connections, settings.patience, token)
        self.names = [item["id"] for item in self.documents.map["items"]]
        self.numbers = {name: number for number, name in enumerate(self.names)}
        self.texts = read_texts(settings.texts, self.documents) if settings.texts else None
        self.first_booking = settings.first_booking

    def score(self, steps):
        """The mean of the posterior (EAP) of the answers, and its standard deviation: those of tools/score.py."""
        items, responses = [one.item for one in steps], [one.response for one in steps]
        sums = posterior_sums(self.documents.bank, self.documents.plan.prior, items, responses)
        return moments(sums, self.documents.map["theta"], self.documents.map["log_unit"])


class Adapter:
    """The routes. `turns` lets one message of a session at a time be answered."""

    def __init__(self, settings):
        self.settings, self.records = settings, Records(settings.store)
        self.key, self.token = secret_of(settings.key).encode(), secret_of(settings.token).encode()
        self.examinations = {name: Examination(one) for name, one in settings.examinations.items()}
        self.turns, self.logged = collections.defaultdict(threading.Lock), set()

    def players_only(self):
        word, _, given = request.headers.get("Authorization", "").partition(" ")
        is_player = word.lower() == "bearer" and hmac.compare_digest(given.strip().encode(), self.token)
        if request.endpoint != "description" and not is_player:
            return failure(401, "the message has no token of a player, as Authorization: Bearer TOKEN")
        return None

    def body(self, *taken):
        """The members of the message that the adapter takes. What is named as ignored is passed over, and logged once."""
        if (request.content_length or 0) > LARGEST:
            abort(413)
        members, passed_over = members_of(request.get_data(), taken, self.settings.ignored)
        for name in passed_over - self.logged:
            self.logged.add(name)
            print(f"cat_api: the member {name} is passed over, as the settings have it", file=sys.stderr, flush=True)
        return members

    # ---------------------------------------------------------------- sections

    def create_section(self):
        body = self.body(MEMBERS.section_configuration)
        configuration = body.get(MEMBERS.section_configuration)
        name = configuration_of(configuration)
        if name not in self.examinations:
            raise BadMessage(f"{MEMBERS.section_configuration} names no examination of this adapter: {name}")
        return {MEMBERS.section_identifier: self.records.add_section(name, configuration)}, 201

    def section(self, section):
        name, configuration = self.known_section(section)
        items = {MEMBERS.item_identifiers: self.examinations[name].names}
        return {MEMBERS.items: items, MEMBERS.section_configuration: configuration}

    def delete_section(self, section):
        self.known_section(section)
        self.records.delete_section(section)
        return "", 204

    def known_section(self, section):
        found = self.records.section(section)
        if found is None or found[0] not in self.examinations:
            raise Unknown("there is no such section")
        return found

    # ---------------------------------------------------------------- sessions

    def create_session(self, section):
        name, _ = self.known_section(section)
        examination, body = self.examinations[name], self.body(MEMBERS.prior_data)
        without = withheld_of(body.get(MEMBERS.prior_data, []), examination.numbers)
        sitting = self.records.add_sitting(section, name, examination.first_booking, without)
        place = examination.server.begin(sitting.booking, sitting.without)
        self.records.note(sitting.id, place)
        return {MEMBERS.session_identifier: sitting.id, **self.place(sitting._replace(state=place.state), 0)}, 201

    def results(self, section, session):
        body = self.body(MEMBERS.assessment_result, MEMBERS.session_state)
        sitting = self.known_sitting(section, session)
        with self.turns[session]:
            return self.answered(sitting, body)

    def answered(self, sitting, body):
        """Records the response to the item of the state's step. One that was acknowledged before gets the same reply again."""
        examination, step = self.examinations[sitting.examination], read_state(self.key, sitting, body.get(MEMBERS.session_state))
        steps = {one.step: one for one in self.records.steps(sitting.id)}
        if step not in steps:
            raise WrongState("the state is of a step at which no item was given")
        given = steps[step]
        response = result_of(body.get(MEMBERS.assessment_result), examination, given.item)
        if given.response is None:
            self.send(examination, sitting, given._replace(response=response))
        elif given.response != response:
            raise BadMessage(f"the item {examination.names[given.item]} was answered otherwise before")
        return self.place(self.known_sitting(sitting.section, sitting.id), step + 1)

    def send(self, examination, sitting, answer):
        """Sends a response to shadowd, with its booking; the session is found by the booking first."""
        server = examination.server
        place = server.begin(sitting.booking, sitting.without)
        if place.state == "waiting" and place.step == answer.step and place.item != answer.item:
            raise WrongState("the journal of the examination is another one, and waits for another item at this step")
        try:
            place = server.answer(place.session, answer.step, answer.response, sitting.booking)
        except Refused as refused:
            if refused.error != "is-closed":
                raise
            place, answer = server.begin(sitting.booking, sitting.without), None  # somebody else closed it before this answer
        self.records.note(sitting.id, place, answer)

    def place(self, sitting, step):
        """The reply that has the item of a step, or the end of the test."""
        examination, steps = self.examinations[sitting.examination], self.records.steps(sitting.id)
        following = [examination.names[one.item] for one in steps if one.step == step]
        items = {MEMBERS.item_identifiers: following, MEMBERS.stage_length: len(following)}
        reply = {MEMBERS.session_state: written_state(self.key, sitting, step), MEMBERS.next_items: items}
        if not following:
            answered = [one for one in steps if one.response is not None]
            reply[MEMBERS.assessment_result] = self.outcome(examination, sitting, answered)
        return reply

    @staticmethod
    def outcome(examination, sitting, answered):
        """The result of a test that has ended: whether it is complete, and the score of its answers."""
        values = [(WORDS.completion, WORDS.identifier, WORDS.completed if sitting.state == "complete" else WORDS.incomplete)]
        if answered:
            theta, error = examination.score(answered)
            values += [(WORDS.theta, WORDS.float, theta), (WORDS.error, WORDS.float, error)]
        variables = [{MEMBERS.identifier: name, MEMBERS.cardinality: WORDS.single, MEMBERS.base_type: kind, MEMBERS.value: [value]}
                     for name, kind, value in values]
        return {MEMBERS.test_result: {MEMBERS.identifier: sitting.id, MEMBERS.outcome_variables: variables}}

    def delete_session(self, section, session):
        sitting = self.known_sitting(section, session)
        server = self.examinations[sitting.examination].server
        with self.turns[session]:
            place = server.begin(sitting.booking, sitting.without)
            if place.state == "waiting":
                try:
                    place = server.close(place.session, sitting.booking)
                except Refused as refused:
                    if refused.error != "is-closed":
                        raise
                    place = server.begin(sitting.booking, sitting.without)
            self.records.note(sitting.id, place)
            self.records.delete_sitting(session)
        return "", 204

    def known_sitting(self, section, session):
        self.known_section(section)
        found = self.records.sitting(section, session)
        if found is None:
            raise Unknown("there is no such session of this section")
        return found


def failure(status, text):
    """A refusal in the form of the standard."""
    word = CODES.get(status, CODES[500 if status >= 500 else 400])
    field = {ERRORS.field_name: ERRORS.target, ERRORS.field_value: word}
    body = {ERRORS.code_major: ERRORS.failure, ERRORS.severity: ERRORS.error, ERRORS.description: text,
            ERRORS.code_minor: {ERRORS.code_minor_field: [field]}}
    return Response(json.dumps(body, ensure_ascii=False), status, mimetype="application/json")


def logged_failure(status, fault):
    print(f"cat_api: {request.method} {request.path}: {fault}", file=sys.stderr, flush=True)
    return failure(status, str(fault))


def flask_rule(route):
    return BASE + route.replace("{sectionIdentifier}", "<section>").replace("{sessionIdentifier}", "<session>")


def make_app(settings):
    app, adapter = Flask(__name__, static_folder=None), Adapter(settings)
    app.config["LARGEST_BODY"] = LARGEST
    app.json.sort_keys, app.json.ensure_ascii = False, False
    app.before_request(adapter.players_only)
    for route, method, view in (("sections", "POST", adapter.create_section), ("section", "GET", adapter.section), ("section", "DELETE", adapter.delete_section),
                                ("sessions", "POST", adapter.create_session), ("session", "DELETE", adapter.delete_session),
                                ("results", "POST", adapter.results)):
        app.add_url_rule(flask_rule(ROUTES[route]), view.__name__, view, methods=[method])
    app.add_url_rule(BASE + "/openapi.json", "description", lambda: Response(description(), mimetype="application/json"))
    for kind, status in ((BadMessage, 400), (WrongState, 400), (Unknown, 404), (Away, 503)):
        app.register_error_handler(kind, lambda fault, status=status: logged_failure(status, fault))
    app.register_error_handler(Refused, lambda fault: logged_failure(400, f"the examination refuses it: {fault.error}"))
    app.register_error_handler(HTTPException, lambda fault: failure(fault.code, fault.description))
    app.after_request(with_headers)
    return app


def with_headers(response):
    response.headers["Cache-Control"], response.headers["X-Content-Type-Options"] = "no-store", "nosniff"
    return response


if __name__ == "__main__":
    if sys.argv[1:] == ["--openapi"]:
        print(description(), end="")
        sys.exit(0)
    sys.exit(web.run(make_app, "listen", sys.argv[1:], read_adapter_settings))
