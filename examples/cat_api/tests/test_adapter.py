"""The adapter beside shadowd: a player written by hand from its description takes a whole test, and what is refused changes nothing."""
import base64
import contextlib
import csv
import http.client
import io
import json
import os
import subprocess
import sys
import unittest.mock

from common import EXAMPLES, HERE, LIMIT, PROGRAM, Examination, StandIn, free_port, listens, needs_flask, needs_program, wait_until

ADAPTER = os.path.join(EXAMPLES, "cat_api")
sys.path.insert(0, ADAPTER)
TOKEN, KEY = "t" * 20, "k" * 20


def complaints(value, schema, schemas, where="body"):
    """What of a value is not as its schema has it: kinds, members that are needed, and members that it does not name."""
    if "$ref" in schema:
        return complaints(value, schemas[schema["$ref"].rpartition("/")[2]], schemas, where)
    kinds = {"object": dict, "array": list, "string": str, "integer": int}
    kind = schema.get("type")
    if kind and (not isinstance(value, kinds[kind]) or isinstance(value, bool)):
        return [f"{where} is no {kind}"]
    found = [f"{where} is {value!r}"] if "enum" in schema and value not in schema["enum"] else []
    if kind == "integer" and not schema.get("minimum", value) <= value <= schema.get("maximum", value):
        found.append(f"{where} is {value}")
    if kind == "object":
        found += [f"{where} has no {name}" for name in schema["required"] if name not in value]
        for name, one in value.items():
            found += complaints(one, schema["properties"][name], schemas, f"{where}.{name}") if name in schema["properties"] else [f"{where}.{name} is not named"]
    if kind == "array":
        found += [text for at, one in enumerate(value) for text in complaints(one, schema["items"], schemas, f"{where}[{at}]")]
    return found


class Player:
    """A client that knows the description alone: `ask` sends a message to an operation of it, and holds both bodies against it."""

    def __init__(self, test, ask):
        self.test, self.send = test, ask
        self.described = json.loads(ask("GET", "/ims/cat/v1p0/openapi.json", None)[1])
        self.schemas = self.described["components"]["schemas"]
        self.operations = {one["operationId"]: (method, path, one) for path, found in self.described["paths"].items()
                           for method, one in found.items() if method != "parameters"}

    def schema_of(self, holder):
        return holder["content"]["application/json"]["schema"]

    def ask(self, name, body=None, wanted=None, **parameters):
        """Status and body of the reply of an operation; both are held against the description."""
        method, path, operation = self.operations[name]
        status, text = self.send(method.upper(), path.format(**parameters), body)
        reply = json.loads(text) if text else None
        if wanted is None or status < 400:
            if body is not None:
                self.test.assertEqual(complaints(body, self.schema_of(operation["requestBody"]), self.schemas), [])
        described = operation["responses"][str(status)]
        if "content" in described:
            self.test.assertEqual(complaints(reply, self.schema_of(described), self.schemas), [])
        else:
            self.test.assertIsNone(reply)
        if wanted is not None:
            self.test.assertEqual(status, wanted, text)
        return reply

    def begin(self, examination, **more):
        """A section of an examination and a session of it: the parameters of its address, and the first reply."""
        configuration = base64.b64encode(json.dumps({"examination": examination}).encode()).decode()
        section = self.ask("createSection", {"sectionConfiguration": configuration}, 201)["sectionIdentifier"]
        reply = self.ask("createSession", more, 201, sectionIdentifier=section)
        return {"sectionIdentifier": section, "sessionIdentifier": reply["sessionIdentifier"]}, reply

    @staticmethod
    def results(reply, *values, **more):
        """The message with the result of the item that a reply gave: a value that the examinee chose, or a score."""
        item = {"identifier": reply["nextItems"]["itemIdentifiers"][0], "sequenceIndex": 1, "datestamp": "2026-12-01T14:00:00Z", "sessionStatus": "final"}
        if values:
            item["responseVariables"] = [{"identifier": "RESPONSE", "cardinality": "single", "baseType": "string", "candidateResponse": {"value": list(values)}}]
        if "score" in more:
            item["outcomeVariables"] = [{"identifier": "SCORE", "cardinality": "single", "baseType": "float", "value": [more["score"]]}]
        return {"assessmentResult": {"itemResults": [item]}, "sessionState": reply["sessionState"]}


class OfAdapter(Examination):
    """Settings of an adapter that leads to the examination of the test."""

    def setUp(self):
        super().setUp()
        self.adapter_port = free_port()
        for name, text in (("player", TOKEN), ("key", KEY)):
            self.write(name, text)
        self.configure()

    def configure(self, more="", ignored="[]", **changed):
        entries = {"server": f"127.0.0.1:{self.ports['server']}", "bank": self.bank, "plan": "plan.txt", "map": "map.json",
                   "texts": os.path.join(HERE, "texts", self.example), **changed}
        lines = [f'{name} = "{value}"' for name, value in entries.items() if value]
        self.adapter_settings = self.write("adapter.toml", "\n".join([
            f'listen = "127.0.0.1:{self.adapter_port}"', 'store = "adapter.sqlite"', 'key = "key"', 'token = "player"', f"ignored = {ignored}",
            f"[examinations.{self.example}]", "first_booking = 500", f"patience = {LIMIT}", *lines, more, ""]))

    def app(self, server=None):
        from adapter import make_app
        from adapter_settings import read_adapter_settings
        with unittest.mock.patch("adapter.ExamServer", return_value=server) if server else contextlib.nullcontext():
            return make_app(read_adapter_settings(self.adapter_settings))

    def player(self, app, token=TOKEN):
        def ask(method, path, body):
            data = body if isinstance(body, (bytes, type(None))) else json.dumps(body)
            reply = app.test_client().open(path, method=method, data=data, headers={"Authorization": f"Bearer {token}"} if token else {})
            return reply.status_code, reply.get_data(as_text=True)
        return Player(self, ask)

    @staticmethod
    def outcomes(reply):
        return {one["identifier"]: one["value"][0] for one in reply["assessmentResult"]["testResult"]["outcomeVariables"]}


@needs_flask
@needs_program
class WithProgram(OfAdapter):
    """The adapter as its own process, over shadowd."""

    def test_a_whole_test(self):
        """THETA and SE are those of the score tool for the journal; the booking is the first of the adapter's own."""
        server = self.start_server()
        process = self.start(sys.executable, os.path.join(ADAPTER, "adapter.py"), self.adapter_settings)
        wait_until(lambda: process.poll() is not None or listens(self.adapter_port), "the adapter listens")
        self.assertIsNone(process.poll())
        player = Player(self, self.over_the_network)
        address, reply = player.begin(self.example)
        with open(self.path("map.json"), encoding="utf-8") as file:
            names = [item["id"] for item in json.load(file)["items"]]
        section = player.ask("getSection", None, 200, sectionIdentifier=address["sectionIdentifier"])
        self.assertEqual(section["items"]["itemIdentifiers"], names)
        given = []
        while reply["nextItems"]["stageLength"]:
            given.append(reply["nextItems"]["itemIdentifiers"][0])
            self.assertNotIn("assessmentResult", reply)
            reply = player.ask("postResults", player.results(reply, "ABCD"[len(given) % 4]), 200, **address)
        self.kill(server)
        session, = self.journal_sessions()
        self.assertEqual((session.booking, [names[item] for item in session.items], len(given)), (500, given, 20))
        self.assertEqual(session.responses, [int("ABCD"[(step + 1) % 4] == self.key_of(item)) for step, item in enumerate(session.items)])
        tool = [sys.executable, os.path.join(EXAMPLES, "..", "tools", "score.py"), self.bank, self.plan, self.path("map.json"), "--journal", self.path("journal"), "--program", PROGRAM]
        row = next(csv.DictReader(subprocess.run(tool, capture_output=True, text=True, timeout=LIMIT, check=True).stdout.splitlines()))
        outcomes = self.outcomes(reply)
        self.assertEqual(outcomes["completionStatus"], "completed")
        self.assertEqual((f"{outcomes['THETA']:.4f}", f"{outcomes['SE']:.4f}"), (row["eap"], row["posterior_sd"]))

    def over_the_network(self, method, path, body):
        with contextlib.closing(http.client.HTTPConnection("127.0.0.1", self.adapter_port, timeout=LIMIT)) as connection:
            connection.request(method, path, None if body is None else json.dumps(body), {"Authorization": f"Bearer {TOKEN}"})
            reply = connection.getresponse()
            return reply.status, reply.read().decode()

    def key_of(self, item):
        """The letter of the right option, by the agency's table of attributes."""
        with open(os.path.join(EXAMPLES, "knowledge", "attributes.csv"), encoding="utf-8", newline="") as file:
            return list(csv.DictReader(file))[item]["KEY"]

    def test_a_list_and_a_close(self):
        """Items of an earlier sitting are left out; a session that is deleted is closed at shadowd, once."""
        self.start_server()
        player = self.player(self.app())
        address, reply = player.begin(self.example)
        shown = [reply["nextItems"]["itemIdentifiers"][0]]
        for _ in range(3):
            reply = player.ask("postResults", player.results(reply, score=1), 200, **address)
            shown += reply["nextItems"]["itemIdentifiers"]
        other, second = player.begin(self.example, priorData=[{"label": "without", "value": shown}])
        self.assertNotIn(second["nextItems"]["itemIdentifiers"][0], shown)
        player.ask("deleteSession", None, 204, **address)
        player.ask("deleteSession", None, 404, **address)
        player.ask("postResults", player.results(reply, score=1), 404, **address)
        first, after = self.journal_sessions()
        self.assertEqual((first.closed, len(first.responses), after.closed, after.without), (True, 3, False, set(first.items)))
        self.assertEqual((first.booking, after.booking), (500, 501))
        player.ask("deleteSession", None, 204, **other)


@needs_flask
class OverStandIn(OfAdapter):
    """The adapter over a stand-in for shadowd, whose sessions have the items in order."""

    def setUp(self):
        super().setUp()
        self.server = StandIn()
        with contextlib.redirect_stderr(io.StringIO()) as self.said:
            pass
        self.quiet = contextlib.redirect_stderr(self.said)
        self.quiet.__enter__()
        self.addCleanup(self.quiet.__exit__, None, None, None)
        self.one = self.player(self.app(self.server))

    def test_results_that_are_sent_twice(self):
        """The reply is the same each time, also after the next item was answered, and from an adapter that began again."""
        address, first = self.one.begin(self.example)
        message = self.one.results(first, score=1)
        second = self.one.ask("postResults", message, 200, **address)
        self.assertEqual(self.one.ask("postResults", message, 200, **address), second)
        self.one.ask("postResults", self.one.results(second, score=0), 200, **address)
        again = self.player(self.app(self.server))
        self.assertEqual(again.ask("postResults", message, 200, **address), second)
        self.assertEqual(self.server.recorded, {0: [1, 0]})

    def test_replies_of_shadowd_that_are_lost(self):
        for fault in ("before", "after"):
            with self.subTest(fault):
                address, reply = self.one.begin(self.example)
                message, session = self.one.results(reply, score=1), len(self.server.sessions) - 1
                self.server.lost = [fault]
                failure = self.one.ask("postResults", message, 503, **address)
                self.assertEqual(failure["imsx_CodeMinor"]["imsx_codeMinorField"][0]["imsx_codeMinorFieldValue"], "server_busy")
                reply = self.one.ask("postResults", message, 200, **address)
                self.assertEqual((reply["nextItems"]["itemIdentifiers"], self.server.recorded[session]), (["V2"], [1]))

    def test_another_answer_to_a_step(self):
        address, first = self.one.begin(self.example)
        self.one.ask("postResults", self.one.results(first, score=1), 200, **address)
        self.one.ask("postResults", self.one.results(first, score=0), 400, **address)
        self.assertEqual(self.server.recorded, {0: [1]})

    def test_states_that_are_refused(self):
        """A forged one, one of another session, and none: nothing is recorded."""
        (address, first), (other, second) = self.one.begin(self.example), self.one.begin(self.example)
        raw = base64.b64decode(first["sessionState"])
        forged = base64.b64encode(raw[:-2] + b"9}").decode()
        for state in (forged, second["sessionState"], "", "!", "A" * 100, first["sessionState"][:-4], "é", None, 7):
            with self.subTest(state):
                self.one.ask("postResults", {**self.one.results(first, score=1), "sessionState": state}, 400, **address)
        without = self.one.results(first, score=1)
        del without["sessionState"]
        self.one.ask("postResults", without, 400, **address)
        self.assertEqual(self.server.recorded, {0: [], 1: []})
        self.one.ask("postResults", self.one.results(second, score=1), 200, **other)

    def test_results_that_are_refused(self):
        address, first = self.one.begin(self.example)
        good = self.one.results(first, "A")

        def changed(**members):
            item = {**good["assessmentResult"]["itemResults"][0], **members}
            return {**good, "assessmentResult": {"itemResults": [{name: value for name, value in item.items() if value is not None}]}}

        score = {"identifier": "SCORE", "value": ["1"]}
        response = good["assessmentResult"]["itemResults"][0]["responseVariables"][0]
        for name, message in {
                "no result": {**good, "assessmentResult": {"itemResults": []}}, "two results": {**good, "assessmentResult": {"itemResults": good["assessmentResult"]["itemResults"] * 2}},
                "no list": {**good, "assessmentResult": {"itemResults": {}}}, "no object": {**good, "assessmentResult": []}, "another item": changed(identifier="V2"),
                "no response": changed(responseVariables=None), "two responses": changed(responseVariables=[response, response]),
                "no option": changed(responseVariables=[{**response, "candidateResponse": {"value": ["E"]}}]),
                "two options": changed(responseVariables=[{**response, "candidateResponse": {"value": ["A", "B"]}}]),
                "nothing chosen": changed(responseVariables=[{**response, "candidateResponse": {"value": []}}]),
                "a score of half": changed(responseVariables=None, outcomeVariables=[{**score, "value": ["0.5"]}]),
                "a category too many": changed(responseVariables=None, outcomeVariables=[{**score, "value": [2]}]),
                "a score that is none": changed(responseVariables=None, outcomeVariables=[{**score, "value": [True]}]),
                "not a number": changed(responseVariables=None, outcomeVariables=[{**score, "value": ["nan"]}]),
                "two scores": changed(responseVariables=None, outcomeVariables=[score, score]),
                "a score of another response": changed(outcomeVariables=[{**score, "value": [0]}]),
                "a member more": {**good, "demographics": {}}}.items():
            with self.subTest(name):
                self.one.ask("postResults", message, 400, **address)
                self.assertEqual(self.server.recorded, {0: []})
        self.one.ask("postResults", changed(outcomeVariables=[score]), 200, **address)
        self.assertEqual(self.server.recorded, {0: [1]})

    def test_the_text_of_an_option_comes_before_its_letter(self):
        folder = self.path("texts")
        os.mkdir(folder)
        for name in os.listdir(os.path.join(HERE, "texts", "knowledge")):
            with open(os.path.join(HERE, "texts", "knowledge", name), encoding="utf-8") as file:
                self.write(f"texts/{name}", file.read())
        self.write("texts/V1.toml", "text = 'x'\noptions = ['B', '1 < 2 & 3', 'C']\nresponses = [1, 0, 0]\n")
        self.configure(texts=folder)
        for value, response in (("B", 1), ("A", 1), ("1 < 2 & 3", 0), ("C", 0)):
            with self.subTest(value):
                server = StandIn()
                player = self.player(self.app(server))
                address, first = player.begin(self.example)
                player.ask("postResults", player.results(first, value), 200, **address)
                self.assertEqual(list(server.recorded.values()), [[response]] if len(server.recorded) == 1 else server.recorded)

    def test_without_texts_a_score_is_needed(self):
        self.configure(texts="")
        player = self.player(self.app(self.server))
        address, first = player.begin(self.example)
        player.ask("postResults", player.results(first, "A"), 400, **address)
        player.ask("postResults", player.results(first, "A", score="1"), 200, **address)
        self.assertEqual(self.server.recorded, {0: [1]})

    def test_members_without_counterpart(self):
        """Each is refused by its name. What the settings name is passed over, and logged once."""
        configuration = {"sectionConfiguration": base64.b64encode(b'{"examination":"knowledge"}').decode()}
        section = self.one.ask("createSection", configuration, 201)["sectionIdentifier"]
        for operation, name in (("createSection", "qtiUsagedata"), ("createSection", "qtiMetadata"), ("createSection", "another"),
                                ("createSession", "demographics"), ("createSession", "personalNeedsAndPreferences")):
            body = {**(configuration if operation == "createSection" else {}), name: "x"}
            failure = self.one.ask(operation, body, 400, sectionIdentifier=section)
            self.assertIn(f"unsupported: {name}.", failure["imsx_description"])
        failure = self.one.ask("createSession", {"priorData": [{"label": "theta", "value": "0.5"}]}, 400, sectionIdentifier=section)
        self.assertIn("unsupported: priorData with the label 'theta'", failure["imsx_description"])
        self.assertEqual(self.server.sessions, {})
        self.configure(ignored='["qtiMetadata", "demographics"]')
        player = self.player(self.app(self.server))
        for _ in range(2):
            status, text = player.send("POST", "/ims/cat/v1p0/sections", {**configuration, "qtiMetadata": "x"})
            section = json.loads(text)["sectionIdentifier"]
            self.assertEqual((status, player.send("POST", f"/ims/cat/v1p0/sections/{section}/sessions", {"demographics": "x"})[0]), (201, 201))
        self.assertEqual(self.said.getvalue().count("the member qtiMetadata is passed over"), 1)
        player.ask("createSection", {**configuration, "qtiUsagedata": "x"}, 400)

    def test_lists(self):
        section = self.one.begin(self.example)[0]["sectionIdentifier"]
        for value, wanted in ((["V3", "V1", "V3"], [0, 2]), ("V2  V9", [1, 8])):
            self.one.ask("createSession", {"priorData": [{"label": "without", "value": value}]}, 201, sectionIdentifier=section)
            self.assertEqual(list(self.server.lists.values())[-1], wanted)
        for value in (["V99"], [7], 7, None, {"V1": 1}):
            self.one.ask("createSession", {"priorData": [{"label": "without", "value": value}]}, 400, sectionIdentifier=section)

    def test_messages_that_are_none(self):
        section = self.one.begin(self.example)[0]["sectionIdentifier"]
        for body in (b"{", b"[]", b"7", b"\xff", b"[" * 50000, b'{"sectionConfiguration":7}', b'{"sectionConfiguration":"!"}', b'{"sectionConfiguration":"W10="}',
                     json.dumps({"sectionConfiguration": base64.b64encode(b'{"examination":"another"}').decode()}).encode()):
            self.one.ask("createSection", body, 400)
        for body in (b'{"priorData":7}', b'{"priorData":[7]}', b'{"priorData":[{"label":"without"}]}', b'{"priorData":{}}'):
            self.one.ask("createSession", body, 400, sectionIdentifier=section)
        self.assertEqual(self.one.send("POST", "/ims/cat/v1p0/sections", b"x" * 70000)[0], 413)
        self.assertEqual(len(self.server.sessions), 1)

    def test_who_may_ask(self):
        for token in ("", "x", TOKEN + "x", TOKEN[:-1]):
            status, text = self.player(self.app(self.server), token).send("POST", "/ims/cat/v1p0/sections", b"{}")
            self.assertEqual((status, json.loads(text)["imsx_CodeMinor"]["imsx_codeMinorField"][0]["imsx_codeMinorFieldValue"]), (401, "unauthorisedrequest"))

    def test_what_is_not_there(self):
        address, first = self.one.begin(self.example)
        other = self.one.begin(self.example)[0]
        self.one.ask("getSection", None, 404, sectionIdentifier="x")
        self.one.ask("createSession", {}, 404, sectionIdentifier="x")
        for wrong in ({"sessionIdentifier": "x"}, {"sectionIdentifier": "x"}, {"sectionIdentifier": other["sectionIdentifier"]}):
            self.one.ask("postResults", self.one.results(first, score=1), 404, **{**address, **wrong})
            self.one.ask("deleteSession", None, 404, **{**address, **wrong})
        self.one.ask("deleteSection", None, 204, sectionIdentifier=address["sectionIdentifier"])
        self.one.ask("deleteSection", None, 404, sectionIdentifier=address["sectionIdentifier"])
        self.one.ask("postResults", self.one.results(first, score=1), 404, **address)
        self.assertEqual(self.server.closed, set())

    def test_a_session_that_somebody_else_closed(self):
        address, first = self.one.begin(self.example)
        second = self.one.ask("postResults", self.one.results(first, score=1), 200, **address)
        self.server.closed.add(0)
        message = self.one.results(second, score=1)
        reply = self.one.ask("postResults", message, 200, **address)
        self.assertEqual(reply["nextItems"], {"itemIdentifiers": [], "stageLength": 0})
        self.assertEqual(self.outcomes(reply)["completionStatus"], "incomplete")
        self.assertEqual(self.server.recorded, {0: [1]})
        self.one.ask("deleteSession", None, 204, **address)

    def test_bookings_go_on_after_a_restart(self):
        for count in range(3):
            self.player(self.app(self.server)).begin(self.example)
        self.assertEqual(list(self.server.sessions), [500, 501, 502])

    def test_the_booking_goes_with_each_message(self):
        address, first = self.one.begin(self.example)
        self.server.sessions = {7: 0, 500: 1}
        self.server.recorded[1] = []
        self.one.ask("postResults", self.one.results(first, score=1), 200, **address)
        self.assertEqual(self.server.recorded, {0: [], 1: [1]})

    def test_a_journal_that_waits_for_another_item(self):
        address, first = self.one.begin(self.example)
        place = self.server.place
        self.server.place = lambda session: place(session)._replace(item=9)
        self.one.ask("postResults", self.one.results(first, score=1), 400, **address)
        self.assertEqual(self.server.recorded, {0: []})

    def test_two_examinations(self):
        """Several sections are several examinations, each with bookings of its own."""
        other = os.path.join(EXAMPLES, "aggression", "aggression")
        self.configure(more=f'[examinations.attitudes]\nserver = "127.0.0.1:1"\nbank = "{other}.bank.csv"\nplan = "{other}.plan.txt"\nmap = "{other}.map.json"\n')
        player = self.player(self.app(self.server))
        section = player.begin("attitudes")[0]["sectionIdentifier"]
        self.assertEqual(player.ask("getSection", None, 200, sectionIdentifier=section)["items"]["itemIdentifiers"][0], "S1WantCurse")
        player.begin(self.example)
        self.assertEqual(list(self.server.sessions), [1, 500])

    def test_names_are_in_one_file(self):
        """No other file of the adapter has a name of the standard as a text of its own."""
        from names import TABLE
        names = {name for part in ("members", "errors") for name in TABLE[part].values()} | set(TABLE["codes"].values()) | {TABLE["base"]}
        names = {name for name in names if not name.islower() or "_" in name or "/" in name}
        for file_name in sorted(os.listdir(ADAPTER)):
            if file_name.endswith(".py"):
                with open(os.path.join(ADAPTER, file_name), encoding="utf-8") as file:
                    source = file.read()
                self.assertEqual([name for name in names if f'"{name}"' in source], [], file_name)

    def test_settings_that_are_refused(self):
        from adapter_settings import read_adapter_settings
        from settings import BadInput
        good = self.read("adapter.toml")
        for change, said in ((("first_booking = 500", "first_booking = -1"), "line 7: first_booking has to be a whole number"),
                             (("ignored = []", "ignored = 7"), "line 5: ignored has to be a list of names"),
                             (("ignored = []", "more = 7"), "line 5: more is no setting"), (("plan = ", "plans = "), "plans is no setting"),
                             (('key = "key"\n', ""), "missing key"), ((f"[examinations.{self.example}]", "[others]"), "others is no setting")):
            with self.subTest(change):
                self.assertIn(change[0], good)
                self.write("adapter.toml", good.replace(*change))
                with self.assertRaises(BadInput) as caught:
                    read_adapter_settings(self.adapter_settings)
                self.assertIn(said, str(caught.exception))
