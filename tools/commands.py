#!/usr/bin/env python3
"""Writes the table of commands and their replies, tools/commands.txt, to standard output.

The replies are those of tools/model.py, which shares nothing with the program. The form of the table: a line '= TEXT' begins a
session with that document, a line '> LINE' is a command line of it, and the lines up to the next '>' or '=' are the reply. Where
a lazy document replies otherwise, a line '~' stands behind the reply, and its own behind that.
"""

from model import READS, WIDTHS, WRITES, answer, keep
from reading import read

DOCUMENT = ('{"a":[1,{"b":"t","b":2},-5,null,true,[]],"q\\"k":"a\\/b\\u0041\\n\\u0001\\ud83d\\ude00","":{"":0,"x":{}},'
            '"u":340282366920938463463374607431768211455,"i":-170141183460469231731687303715884105728,"a":0}')

# what a command takes behind its path, and what it does not
TAKES = {
    'kind': ['', ',"x"'], 'str': ['', ',null'], 'len': ['', ',0'], 'keys': ['', ',[]'],
    'encode': ['', ',1'], 'encode_pp': ['', ',{}'], 'pop': ['', ',null'],
    'fits': [',"i8"', ',"u64"', ',"usize"', '', ',8', ',"i7"', ',"I8"', ',"i8",1'],
    'has': [',"a"', ',"b"', ',""', '', ',0', ',"a","b"'],
    'remove': [',"zz"', '', ',0', ',["a"]', ',"a",1'],
    'insert': [',"k",{"d":1,"d":2}', ',"k",3', '', ',"k"', ',0,1', ',null,1', ',"k",1,2'],
    'push': [',{"d":1,"d":2}', ',"s"', '', ',1,2'],
    'put': [',[{"e":1,"e":2}]', ',"s"', '', ',1,2'],
}

# what writes go to
SMALL = '{"a":[1,{"b":2,"b":3},[]],"":{"x":null},"a":0}'

SMALL_PATHS = ['[]', '["a"]', '["a",1]', '["a",1,"b"]', '["a",2]', '[""]', '["","x"]', '["zz"]', '["a",3]', '[0]', '["","x","k"]',
               '["a",-1]', '[null]', '"a"', '""', '"/a"', '"/a/1"', '"/a/1/b"', '"/a/3"', '"/a/01"', '"//x"', '"/zz"', '"/~"']

PATHS = ['[]', '["a"]', '["a",1]', '["a",1,"b"]', '["a",5]', '["q\\"k"]', '[""]', '["","x"]', '["u"]',
         # what finds nothing: no such key, past the end, a key on an array, a place on an object, below a scalar
         '["zz"]', '["a",6]', '["a","0"]', '[0]', '["u",0]', '["u","k"]', '["a",-0,"k"]', '["",""," "]',
         # what is no path
         '["a",-1]', '["a",18446744073709551616]', '[["a"]]', '[null]', '{}', '"a"', '0', '["a",true]',
         # pointers, which find something and nothing, and texts that are none
         '""', '"/a"', '"/a/1/b"', '"/a/5"', '"/q\\"k"', '"/"', '"//x"', '"/u"', '"/zz"', '"/a/6"', '"/a/-"', '"/a/00"', '"/u/0"',
         '"a/1"', '"/a~"']

# a document and pointers into it: those of RFC 6901, section 5, and more
POINTED = '{"foo":["bar","baz"],"":0,"a/b":1,"c%d":2,"e^f":3,"g|h":4,"i\\\\j":5,"k\\"l":6," ":7,"m~n":8,"0":{"-":[9]},"~1":"x"}'

POINTERS = ['', '/foo', '/foo/0', '/', '/a~1b', '/c%d', '/e^f', '/g|h', '/i\\\\j', '/k\\"l', '/ ', '/m~0n', '/0/-/0', '/~01', '/foo/1',
            # nothing
            '/foo/2', '/foo/-', '/foo/00', '/foo/01', '/foo/+1', '/foo/1 ', '/foo/', '/foo/18446744073709551615', '/foo/18446744073709551616',
            '/foo/0/x', '/m~01n', '/m~1n', '/0/-/-', '/a/b', '//', '/~0', '/\\u0660',
            # no pointers
            'foo', '#/foo', ' /foo', 'a~2', '/a~2', '/a~', '/~~1', '/foo~/0', '~1foo']

OTHER_LINES = ['["nonsense",[]]', '["ENCODE",[]]', '[]', '["encode"]', '[0,[]]', '{"encode":[]}', '"encode"', 'null',
               '["encode",[]', '["encode",[]]]', "['encode',[]]", ' ["encode" , [ ] ] ', '["enc\\u006fde",[]]',
               '["insert",[],"a",1.5]', '["insert",[],"a",1e3]', '["insert",[],"a",01]', '["insert",[],"a","\\ud83d"]',
               '["insert",[],"a",340282366920938463463374607431768211456]', '["len",["a",0.0]]', '---', ' ', '\t']

BOUNDS = sorted({bound + step for low, high in WIDTHS.values() for bound in (low, high) for step in (-1, 0, 1)})


def sessions():
    """Each a document and its lines."""
    yield DOCUMENT, [f'["{name}",{path}{takes}]' for name, rows in TAKES.items() if name in READS
                     for path in PATHS for takes in rows] + OTHER_LINES + ['["encode",[]]']
    # each write by itself, and what it leaves
    for name in WRITES:
        for takes in TAKES[name]:
            for path in SMALL_PATHS:
                yield SMALL, [f'["{name}",{path}{takes}]', '["encode",[]]']
    yield POINTED, [f'["encode","{pointer}"]' for pointer in POINTERS]
    for pointer in POINTERS:
        yield POINTED, [f'["put","{pointer}",[]]', f'["push","{pointer}",0]', f'["encode","{pointer}"]', '["encode",[]]']
    # repeats, which a lazy document shows until its first write
    for write in ('["pop",[]]', '["remove",[],"a"]', '["put",["a","a"],1]', '["nonsense"]', '["push",["b",1],3]', '["insert",["b"],"c",0]'):
        yield '{"a":1,"b":[{"c":1,"c":2},2],"a":{"a":3}}', ['["len",[]]', '["keys",["b",0]]', write, '["len",[]]', '["encode",["b"]]', '["encode",[]]']
    # writes one after another
    yield '{"a":{"b":[1,2]},"c":null}', [
        '["insert",["a"],"b",5]', '["insert",["a"],"d",[]]', '["push",["a","d"],{"x":1}]', '["insert",["a","d",0],"x",2]',
        '["insert",["a","d",0],"y",3]', '["remove",["a","d",0],"x"]', '["remove",["a","d",0],"x"]', '["keys",["a"]]',
        '["pop",["a","d"]]', '["pop",["a","d"]]', '["put",["c"],{"z":[null,false]}]', '["put",["c","z",0],"t"]',
        '["insert",["c"],"z",0]', '["encode_pp",[]]', '["put",[],7]', '["insert",[],"k",1]', '["push",[],1]', '["pop",[]]',
        '["remove",[],"k"]', '["has",[],"k"]', '["keys",[]]', '["len",[]]', '["str",[]]', '["kind",[]]', '["encode",[]]']
    for number in BOUNDS:
        if -2**127 <= number < 2**128:
            yield str(number), ['["kind",[]]', '["encode",[]]'] + [f'["fits",[],"{width}"]' for width in WIDTHS]
    yield '["-0",-0]', ['["kind",[1]]', '["encode",[1]]', '["fits",[1],"u8"]', '["fits",[0],"u8"]', '["len",[-0]]']
    for scalar_text in ('null', 'true', '"t"', '[]', '{}'):
        yield scalar_text, [f'["{name}",[]{rows[0]}]' for name, rows in TAKES.items()]


def main():
    for document, lines in sessions():
        print('= ' + document)
        lazy = read(document)
        tree = keep(lazy)
        for line in lines:
            tree, reply = answer(tree, line)
            lazy, lazy_reply = answer(lazy, line)
            print('> ' + line)
            print(reply)
            if lazy_reply != reply:
                print('~')
                print(lazy_reply)


main()
