"""uxn-dap: a session of an editor by the Debug Adapter Protocol."""
from __future__ import annotations

import base64
import os
from typing import Any

from lsp_client import Client, Json
from support import ToolTest

SOURCE = """|0000 @count $1
|0100 @main
	#03 .count STZ
	&loop
		.count LDZ twice
		POP
		.count LDZk #01 SUB DUP ROT STZ
		?&loop
	#41 #18 DEO
	BRK
@twice ( n -- m )
	DUP ADD
	JMP2r
"""


class Adapter(ToolTest):
    def setUp(self) -> None:
        super().setUp()
        self.folder = os.path.realpath(self.folder)
        self.write("a.tal", SOURCE)
        self.client = Client(["uxn-dap"], self.folder, self.environment)
        self.addCleanup(self.client.close)
        self.count = 0
        self.events: list[Json] = []

    def ask(self, command: str, **arguments: Any) -> Json:
        """Sends a request, and answers its response; the events before it are kept."""
        self.count += 1
        self.client.send({"seq": self.count, "type": "request", "command": command, "arguments": arguments})
        while (message := self.client.next())["type"] == "event":
            self.events.append(message)
        self.assertEqual((message["request_seq"], message["command"]), (self.count, command))
        return message

    def body(self, command: str, **arguments: Any) -> Json:
        answer = self.ask(command, **arguments)
        self.assertTrue(answer["success"], answer)
        return answer["body"]

    def move(self, command: str, **arguments: Any) -> int:
        """A move, which stops: the line that it stops in."""
        self.body(command, threadId=1, **arguments)
        while (event := self.client.next())["event"] != "stopped":
            self.events.append(event)
        return self.body("stackTrace", threadId=1)["stackFrames"][0]["line"]

    def begin(self, *lines: int) -> list[Json]:
        self.assertTrue(self.body("initialize", adapterID="uxn")["supportsStepBack"])
        self.body("launch", program=self.path("a.tal"))
        self.assertEqual(self.client.next()["event"], "initialized")
        breaks = [{"line": line} for line in lines]
        return self.body("setBreakpoints", source={"path": self.path("a.tal")}, breakpoints=breaks)["breakpoints"]

    def variables(self, number: int) -> dict[str, str]:
        found = self.body("variables", variablesReference=number)["variables"]
        return {one["name"]: one["value"] for one in found}

    def test_breakpoints_stacks_and_memory(self) -> None:
        found = self.begin(12, 4, 99)
        self.assertEqual([(one["verified"], one["line"]) for one in found], [(True, 12), (True, 5), (False, 99)])
        self.assertEqual(self.move("configurationDone"), 3)
        self.assertEqual(self.move("continue"), 5)
        self.assertEqual(self.move("continue"), 12)
        frames = self.body("stackTrace", threadId=1)["stackFrames"]
        self.assertEqual([(one["name"], one["line"]) for one in frames], [("twice+0000", 12), ("main/loop+0003", 5)])
        self.assertEqual(frames[0]["source"]["path"], self.path("a.tal"))
        scopes = {one["name"]: one["variablesReference"] for one in self.body("scopes", frameId=1)["scopes"]}
        self.assertEqual(self.variables(scopes["Working stack"]), {"depth": "1", "top": "03 = 3"})
        self.assertEqual(self.variables(scopes["Return stack"])["depth"], "2")
        self.assertEqual(self.variables(scopes["Zero page"]), {"count": "03" + " 00" * 7})
        self.assertEqual(len(self.variables(scopes["Ports"])), 16)
        self.assertEqual(self.body("evaluate", expression=".count")["result"][:11], "0000: 03 00")
        memory = self.body("readMemory", memoryReference="0x0100", count=3)
        self.assertEqual(base64.b64decode(memory["data"]), b"\x80\x03\x80")

    def test_steps_on_and_back(self) -> None:
        self.begin()
        self.assertEqual(self.move("configurationDone"), 3)
        self.assertEqual([self.move("next") for _ in range(2)], [5, 6])
        self.assertEqual(self.move("stepBack"), 13)
        self.assertEqual(self.move("stepOut"), 6)
        self.assertEqual(self.move("reverseContinue"), 3)
        self.assertEqual([self.move("stepIn", granularity="instruction") for _ in range(4)], [3, 3, 5, 5])
        self.assertEqual(self.move("continue"), 0)
        self.assertIn(("stdout", "A"), [(one["body"].get("category"), one["body"].get("output")) for one in self.events])
        self.assertEqual(self.move("stepBack"), 10)
        self.body("disconnect")
        self.assertEqual(self.client.next()["event"], "terminated")
        self.assertEqual(self.client.server.wait(20), 0)

    def test_what_is_refused(self) -> None:
        self.assertIn("launch has to come first", self.ask("continue")["message"])
        self.assertIn("there is no request nothing", self.ask("nothing")["message"])
        self.write("b.tal", "nothing")
        self.assertIn("UnknownName: nothing", self.ask("launch", program=self.path("b.tal"))["message"])
        self.assertIn("KeyError", self.ask("launch")["message"])
        self.begin()
        self.assertIn("there is no label nothing", self.ask("evaluate", expression="nothing")["message"])
        self.assertIn("no subroutine", self.ask("stepOut")["message"])
