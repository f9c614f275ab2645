"""docs/TUTORIAL.md: its sessions in order, and what the patched program prints where enjarify and java are installed."""
import re
import shutil

from .support import TOP, HelperTest, get, put, room, run, shell


def sessions(page: str) -> list[tuple[str, str, str]]:
    """Each command with what is typed into it and what it prints."""
    found = []
    for block in re.findall(r"```console\n(.*?)```", page, re.S):
        for command, text in re.findall(r"^\$ (.*)\n((?:(?!\$ ).*\n)*)", block, re.M):
            found.append((command, text, "") if command.startswith("cat >") else (command, "", text))
    return found


class Tutorial(HelperTest):
    def test_sessions(self) -> None:
        at, page = room("tutorial"), get(TOP, "docs/TUTORIAL.md").decode()
        for command, typed, printed in sessions(page):
            if typed:
                put(at, command.removeprefix("cat > "), typed.encode("ascii"))
                continue
            with self.subTest(command):
                status, out, said = shell(command, at)
                self.assertEqual((status == (1 if "-diff" in command else 0), out, said), (True, printed, ""))
        block = re.findall(r"```bash\n(.*?)```", page, re.S)[0]
        if not shutil.which("enjarify") or not shutil.which("java"):
            self.skipTest("the patched program isn't run: no enjarify or no java")
        # (enjarify is a module of Debian's own Python)
        seen = run(["bash", "-c", block], at=at, PATH="/usr/bin:/bin")
        self.assertEqual(seen[1].splitlines()[-1:], ["32"], seen)
