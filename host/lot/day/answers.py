"""answers.py: compares the answers in JSON, which the script has gathered, with the fields that they must have.

Standard input has five texts for each, NUL behind each: the command's words, the command, its status, the fields as
JSON (an array where there are several answers), and what came. A field that is null must only be there, as a text.
Fields that begin with the command are the whole object, in this order.
Prints how many there were."""
import json
import sys


def fault(command, status, fields, came):
    if not came.endswith("\n"):
        return "no line"
    wanted = fields if isinstance(fields, list) else [fields]
    lines = came[:-1].split("\n")
    if len(lines) != len(wanted):
        return f"{len(lines)} lines"
    for at, (line, fields) in enumerate(zip(lines, wanted)):
        last = at == len(wanted) - 1
        try:
            pairs = json.loads(line, object_pairs_hook=lambda pairs: pairs)
            answer = json.loads(line)
        except ValueError as error:
            return str(error)
        names = [name for name, _ in pairs]
        if names[:2] != ["command", "status"] or len(set(names)) != len(names):
            return "the fields do not begin with command and status, or one is there twice"
        if answer["command"] != command or last and answer["status"] != status:
            return "command or status"
        if "command" in fields and pairs != list(fields.items()):
            return "there are other fields, or another order"
        for name, value in fields.items():
            if name not in answer or not (answer[name] == value or value is None and isinstance(answer[name], str)):
                return f"{name} is {answer.get(name)!r} and not {value!r}"
    return None


texts = sys.stdin.buffer.read().split(b"\0")[:-1]
failed = 0
for at in range(0, len(texts), 5):
    words, command, status, fields, came = (text.decode(errors="surrogateescape") for text in texts[at : at + 5])
    try:
        came.encode()
        found = fault(command, int(status), json.loads(fields), came)
    except UnicodeEncodeError:
        found = "it is no UTF-8"
    if found:
        failed += 1
        print(f"FAILED in words\n  command   lot {words} --json\n  expected  {fields}\n  came      {came!r}\n  {found}", file=sys.stderr)
print(len(texts) // 5)
sys.exit(failed > 0)
