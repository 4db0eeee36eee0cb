"""gdb runs this over a program with the library's sources and c/tools/gdb.py: prints each place of
that file that is not the one of the sources, and how many places it has compared."""

import gdb

compared = 0
for name, fields in FIELDS.items():  # noqa: F821
    struct = gdb.lookup_type(f"struct {name}")
    for field in struct.fields():
        if field.name not in fields:
            continue
        is_of_parts = field.type.code == gdb.TYPE_CODE_ARRAY
        place = (field.bitpos // 8, 0 if is_of_parts else field.type.sizeof)
        if place != fields[field.name]:
            print(f"{name}.{field.name} is at {place}")
        if is_of_parts and field.type.target().sizeof != LINE:  # noqa: F821
            print(f"{name}.{field.name} has parts of {field.type.target().sizeof} bytes")
        compared += 1
print(f"compared {compared} of {sum(map(len, FIELDS.values()))}")  # noqa: F821
