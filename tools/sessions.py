#!/usr/bin/env python3
"""Runs sessions of small inputs in each form and way, and looks at the replies.

Usage: tools/sessions.py PROGRAM, which is sjval. Where a lazy document, or one that keeps the last of the members of a key,
replies otherwise, its row says so. What is expected comes from RFC 8259 and RFC 6901, and from the commands as docs/SJVAL.md
has them. Tells each session that is answered otherwise; the last line is 'N passed, M failed'.
"""
import subprocess
import sys

KEPT = ["owned", "owned known", "borrowed", "borrowed known"]
LAST = [words + " last" for words in KEPT]

# a document, command lines, and the replies, in every way
SESSIONS = [
    # the first example, and a key that is written with escapes
    (
        '{"some": ["key", "value", 2]}',
        '["encode",[]]\n["insert",[],"n",-0]\n["insert",[],"n",true]\n["encode",[]]\n',
        '{"some":["key","value",2]}\nnone\n0\n{"some":["key","value",2],"n":true}\n',
    ),
    (r'{"q\"k":"a\/b\u0041"}', '["encode",[]]', '{"q\\"k":"a/bA"}\n'),
    (r'"\ud83d\ude00"', '["encode",[]]', '"\U0001f600"\n'),
    # numbers at the limits of each carrier print as they were read
    (f"[{2**128 - 1},{-(2**127)}]", '["encode",[]]\n', f"[{2**128 - 1},{-(2**127)}]\n"),
    (
        f"[{2**64 - 1},{2**64},{-(2**63)},{-(2**63) - 1},-0]",
        '["encode",[]]',
        f"[{2**64 - 1},{2**64},{-(2**63)},{-(2**63) - 1},0]\n",
    ),
    # no commands, and lines without bytes
    ("[1]", "", ""),
    ("[1]", '\n\r\n["encode",[]]\n\n', "[1]\n"),
    ("[1]", "---\n", "bad command\n"),
    # reads and writes of members
    (
        '{"key": "value", "snot": 42}',
        '["str",["key"]]\n["insert",[],"new",42]\n["keys",[]]\n["fits",["snot"],"i8"]\n["remove",[],"snot"]\n["encode",[]]',
        '"value"\nnone\n["key","snot","new"]\ntrue\n42\n{"key":"value","new":42}\n',
    ),
    # keys, and whether there is one
    (
        r'{"a":{"b":1,"q\"k":[]},"d":null}',
        '["keys",[]]\n["keys",["a"]]\n["keys",["d"]]\n["keys",["b"]]\n["has",[],"a"]\n["has",[],"b"]\n["has",["a"],"b"]\n'
        '["has",["a"],"q\\"k"]\n["has",["d"],"b"]\n["has",["b"],"a"]\n',
        '["a","d"]\n["b","q\\"k"]\nnot an object\nmissing\ntrue\nfalse\ntrue\ntrue\nfalse\nmissing\n',
    ),
    # a pretty print
    ('{"a":[1,{}]}', '["encode_pp",[]]', '{\n  "a": [\n    1,\n    {}\n  ]\n}\n'),
    # places, and lines that are no command: each is answered, and the session goes on
    (
        "[[1]]",
        f'["len",[-0]]\n["len",[-1]]\n["kind",[{2**128 - 1}]]\n["encode",[],1]\n["ENCODE",[]]\n["fits",[0],"i7"]\n{{"a":1}}\n'
        '["encode",[]\n["insert",[],"a",1.5]\n \n---\n\n\r\n7\nhelp\n[1,2\n\udcff\n["encode",[]]',
        "1\n" + 14 * "bad command\n" + "[[1]]\n",
    ),
    # pointers as paths
    (
        r'{"foo":["bar","baz"],"":0,"a/b":1,"c%d":2,"m~n":8}',
        '["encode","/foo/0"]\n["push","/foo",1]\n["put","/m~0n",null]\n["insert","/foo","k",1]\n["len","/foo/9"]\n'
        '["len","foo"]\n["len","/foo"]\n["len",["foo"]]',
        '"bar"\nok\n8\nnot an object\nmissing\nbad command\n3\n3\n',
    ),
    # an object with more members than a plain list holds, the last of them an array
    (
        "{" + "".join(f'"{i}":{{"v":{i}}},' for i in range(40)) + '"l":[{"v":7}]}',
        '["encode","/0"]\n["encode","/39/v"]\n["encode","/l/0/v"]\n["put","/33/v",[8]]\n["push","/33/v",9]\n["encode","/33"]\n'
        '["pop","/40"]\n["insert","/l/0","w",1]\n["encode","/l"]',
        '{"v":0}\n39\n7\n33\nok\n{"v":[8,9]}\nmissing\nnone\n[{"v":7,"w":1}]\n',
    ),
    # 1,024 levels are read
    (1024 * "[" + 1024 * "]", '["encode",[]]\n', 1024 * "[" + 1024 * "]" + "\n"),
]

# a document with repeats, command lines, and the replies by the first member of each key, and by the last, of a lazy document
# and of others
REPEATS = [
    # at two depths, also of an inserted value
    (
        '{"a":{"b":1,"b":2},"a":3}',
        '["insert",[],"c",{"d":1,"d":2}]\n["encode",[]]',
        'none\n{"a":{"b":1},"c":{"d":1}}\n',
        'none\n{"a":3,"c":{"d":1}}\n',
        'none\n{"a":{"b":1},"c":{"d":1}}\n',
        'none\n{"a":3,"c":{"d":1}}\n',
    ),
    # a lazy document shows them until its first write, also where that is refused or finds nothing
    (
        '{"a":1,"a":2}',
        '["len",[]]\n["pop",[]]\n["encode",[]]',
        '1\nnot an array\n{"a":1}\n',
        '1\nnot an array\n{"a":2}\n',
        '2\nnot an array\n{"a":1}\n',
        '2\nnot an array\n{"a":2}\n',
    ),
    (
        '{"a":1,"a":2}',
        '["keys",[]]\n["pop",[3]]\n["keys",[]]',
        '["a"]\nmissing\n["a"]\n',
        '["a"]\nmissing\n["a"]\n',
        '["a","a"]\nmissing\n["a"]\n',
        '["a","a"]\nmissing\n["a"]\n',
    ),
    (
        '{"a":1,"a":2}',
        '["keys",["b"]]\n["keys",["a"]]\n["encode",[]]',
        'missing\nnot an object\n{"a":1}\n',
        'missing\nnot an object\n{"a":2}\n',
        'missing\nnot an object\n{"a":1,"a":2}\n',
        'missing\nnot an object\n{"a":1,"a":2}\n',
    ),
    (
        '{"a":1,"a":2}',
        '["remove",[],"a"]\n["has",[],"a"]\n["len",[]]',
        "1\nfalse\n0\n",
        "2\nfalse\n0\n",
        "1\nfalse\n0\n",
        "2\nfalse\n0\n",
    ),
    (
        '[{"a":{"b":0,"b":1},"a":2}]',
        '["encode",[0,"a"]]\n["len",[0]]\n["put",[0,"a"],7]\n["encode",[]]',
        '{"b":0}\n1\n{"b":0}\n[{"a":7}]\n',
        '2\n1\n2\n[{"a":7}]\n',
        '{"b":0,"b":1}\n2\n{"b":0}\n[{"a":7}]\n',
        '2\n2\n2\n[{"a":7}]\n',
    ),
    # a pointer's token finds the member that counts
    (
        '{"a":1,"b":2,"a":[3,{"c":4,"c":5}]}',
        '["encode","/a/1/c"]\n["put","/b",0]\n["encode",""]',
        'missing\n2\n{"a":1,"b":0}\n',
        '5\n2\n{"a":[3,{"c":5}],"b":0}\n',
        'missing\n2\n{"a":1,"b":0}\n',
        '5\n2\n{"a":[3,{"c":5}],"b":0}\n',
    ),
    # 32 keys, and the first of them again
    (
        '{"k00":0' + "".join(f',"k{i:02}":{i}' for i in range(1, 32)) + ',"k00":99}',
        '["encode",["k00"]]\n["remove",[],"zz"]\n["len",[]]\n["encode",[]]\n',
        '0\nnone\n32\n{"k00":0' + "".join(f',"k{i:02}":{i}' for i in range(1, 32)) + "}\n",
        '99\nnone\n32\n{"k00":99' + "".join(f',"k{i:02}":{i}' for i in range(1, 32)) + "}\n",
        '0\nnone\n32\n{"k00":0' + "".join(f',"k{i:02}":{i}' for i in range(1, 32)) + "}\n",
        '99\nnone\n32\n{"k00":99' + "".join(f',"k{i:02}":{i}' for i in range(1, 32)) + "}\n",
    ),
]

# texts that are refused, alone and with a command behind them
REFUSED = [
    ("", "Syntax"),
    ("  ", "Syntax"),
    ("01", "Syntax"),
    ("[1,]", "Syntax"),
    ("-", "Syntax"),
    ("nul", "Syntax"),
    ("[1 2]", "Syntax"),
    ('{"a":1', "Syntax"),
    ("1.5", "Float"),
    ("1e3", "Float"),
    (str(2**128), "NumberTooLarge"),
    (str(-(2**127) - 1), "NumberTooLarge"),
    (r'"\ud83d"', "LoneSurrogate"),
    (r'"\ude00"', "LoneSurrogate"),
    ('"\udcff"', "InvalidUtf8"),
    (1025 * "[" + 1025 * "]", "TooDeep"),
]


def long_sessions():
    """Lines of around 64 nodes and 256 bytes, and of many more; paths of so many steps, and keys of as many bytes."""
    for count in [1, 57, 58, 59, 60, 61, 62, 63, 64, 80, 90, 91, 92, 93, 94, 300]:
        numbers = "[" + ",".join(map(str, range(count))) + "]"
        lines = (
            f'["push",[],{numbers}]\n["put",[0],{numbers}]\n["insert",[1],"k",{numbers}]\n["put",[0],{numbers},1]\n["encode",[]]'
        )
        yield "[0,{}]", lines, f'ok\n0\nnone\nbad command\n[{numbers},{{"k":{numbers}}},{numbers}]\n'
    for count in [1, 60, 61, 62, 63, 64, 65, 240, 250, 260, 300]:
        key, steps, tokens = count * "k", (count - 1) * "0,", (count - 1) * "/0"
        lines = f'["has",[],"{key}"]\n["len",["{key}",{steps}0]]\n["len","/{key}/0{tokens}"]\n["len","/{key}/0{tokens}/0"]'
        yield f'{{"{key}":[{count * "["}{count * "]"}]}}', lines, "true\n0\n0\nmissing\n"


def answered(words, text):
    run = subprocess.run(
        [sys.argv[1], *words.split()], input=text.encode(errors="surrogateescape"), capture_output=True, check=False
    )
    return run.returncode, run.stdout.decode(errors="surrogateescape"), run.stderr.decode(errors="surrogateescape")


def cases():
    """The words, the input, and what is answered: a status, what is printed, and the first line of what is told."""
    for document, lines, want in [*SESSIONS, *long_sessions()]:
        for words in [*KEPT, *LAST, "lazy", "lazy last"]:
            yield words, f"{document}\n---\n{lines}", (0, want, "")
    for document, lines, first, last, lazy_first, lazy_last in REPEATS:
        ways = [(words, first) for words in KEPT] + [(words, last) for words in LAST]
        for words, want in [*ways, ("lazy", lazy_first), ("lazy last", lazy_last)]:
            yield words, f"{document}\n---\n{lines}", (0, want, "")
    for document, kind in REFUSED:
        for words in [*KEPT, *LAST, "lazy", "lazy last"]:
            for behind in ["", '\n---\n["encode",[]]\n']:
                yield words, document + behind, (3, "", f"text refused: {kind}")


def main():
    passed = failed = 0
    for words, text, want in cases():
        status, out, told = answered(words, text)
        if (status, out, told.split("\n", 1)[0]) == want:
            passed += 1
        else:
            failed += 1
            print(f"{words} on {text[:200]!r}: {(status, out[:200], told[:200])}, and not {want}"[:900])
    print(f"{passed} passed, {failed} failed")
    return 1 if failed else 0


if __name__ == "__main__":
    sys.exit(main())
