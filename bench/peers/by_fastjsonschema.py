"""Reads and judges the resources of a file by fastjsonschema.

usage: by_fastjsonschema.py SCHEMA LINES

It does so twice, and prints the processor's seconds of the second time, and how many are right.
"""

import json
import sys
import time

import fastjsonschema


def count_right(check, path):
    right = 0
    with open(path, encoding="utf-8") as lines:
        for line in lines:
            try:
                check(json.loads(line))
                right += 1
            except fastjsonschema.JsonSchemaException:
                pass
    return right


def main(schema, lines):
    with open(schema, encoding="utf-8") as file:
        check = fastjsonschema.compile(json.load(file))
    count_right(check, lines)
    begun = time.process_time()
    right = count_right(check, lines)
    print(time.process_time() - begun, right)


if __name__ == "__main__":
    main(*sys.argv[1:])
