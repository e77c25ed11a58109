"""A command is built, split and taken out of order. Run: PYTHONPATH=python python3 examples/example.py"""
import skelmarix

library = skelmarix.Skelmarix()
fields = bytes.fromhex("0121 15 15 B00010 0000000001 00")
command = library.build_command(fields, b"checksum", bytes(300))
card = skelmarix.Receiver(library, skelmarix.COMMAND, slots=3)
for number in (2, 3, 1):
    total, part = library.write_message(skelmarix.COMMAND, 8, 42, number, command)
    taken = card.message(7, part)
    print(f"part {number} of {total}: {taken.what}, slot {taken.slot}")
print(len(library.parse_command(taken.packet).data), "octets of data")
