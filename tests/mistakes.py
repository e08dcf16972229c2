# SPDX-License-Identifier: Apache-2.0 OR MIT
"""Traces as people write them by mistake, and what tools/explain must say of each: a part of the mend."""

import bz2
import gzip
import lzma
import subprocess

import support

IN_THE_HEADER = {
    "no format": ("host 1000000 0\nbegin\nend\n", "the first line says the format"),
    "a capital format": ("Clockboard 1\nbegin\nend\n", "clockboard in place of Clockboard"),
    "the format in one word": ("clockboard1\nbegin\nend\n", "the first line is two words"),
    "a version": ("clockboard v1\nbegin\nend\n", "1 in place of v1"),
    "a version with a point": ("clockboard 2.0\nbegin\nend\n", "2 in place of 2.0"),
    "a format that isn't there": ("clockboard 77\nbegin\nend\n", "the formats are 1 to 5"),
    "no number of the format": ("clockboard\nbegin\nend\n", "clockboard 1"),
    "another order": ("clockboard 1\nguest 1000000\nhost 1000000 0\nbegin\nend\n", "have this order"),
    "a line twice": ("clockboard 1\ncpus 2\ncpus 2\nbegin\nend\n", "the line `cpus` comes once"),
    "no start": ("clockboard 1\nhost 1000000\nbegin\nend\n", "START is missing"),
    "a unit of the rate": ("clockboard 1\nhost 2.4GHz 0\nbegin\nend\n", "2400000 in place of 2.4GHz"),
    "a rate in hertz": ("clockboard 1\nhost 1000000000 0\nbegin\nend\n", "1000000 in place of 1000000000"),
    "a rate in megahertz": ("clockboard 1\nguest 2400\nbegin\nend\n", "2400000 in place of 2400"),
    "a rate with a point": ("clockboard 1\nguest 2399999.5\nbegin\nend\n", "2400000 in place of 2399999.5"),
    "no processors": ("clockboard 1\ncpus 0\nbegin\nend\n", "1 to 16 processors in format 1"),
    "17 processors": ("clockboard 1\ncpus 17\nbegin\nend\n", "format 2 has up to 64 processors: clockboard 2"),
    "65 processors": ("clockboard 2\ncpus 65\nbegin\nend\n", "1 to 64 from format 2 on"),
    "processors in words": ("clockboard 1\ncpus two\nbegin\nend\n", "a number of processors is digits"),
    "one policy": ("clockboard 1\npolicy delay\nbegin\nend\n", "policy delay delay delay"),
    "another policy": ("clockboard 1\npolicy delay delay catchup\nbegin\nend\n", "discard, delay or slew"),
    "a capital policy": ("clockboard 1\npolicy Delay delay delay\nbegin\nend\n", "delay in place of Delay"),
    "a unit of slew": ("clockboard 1\nslew 1ms\nbegin\nend\n", "in nanoseconds it is 1000000"),
    "no nanoseconds": ("clockboard 1\nwall 1700000000\nbegin\nend\n", "wall 1700000000 0"),
    "seconds with a point": ("clockboard 1\nwall 1700000000.5 0\nbegin\nend\n", "1700000000 500000000"),
    # 14 November 2023, 12:00:00 UTC; a Tuesday, which is day 3 where Sunday is 1
    "a date": ("clockboard 1\nwall 2023-11-14 12:00:00\nbegin\nend\n", "wall 1699963200 0"),
    "a date of the clock": ("clockboard 1\nrtc 2023-11-14 12:00:00\nbegin\nend\n", "rtc 00 00 12 03 14 11 23"),
    "six bytes": ("clockboard 1\nrtc 58 59 11 03 14 11\nbegin\nend\n", "rtc 58 59 11 03 14 11 23"),
    "a prefix of a byte": ("clockboard 1\nrtc 0x58 59 11 03 14 11 23\nbegin\nend\n", "58 in place of 0x58"),
    "a low vector": ("clockboard 1\nroute 0 0 8\nbegin\nend\n", "from 10 on"),
    "a line that isn't there": ("clockboard 1\nroute 1 0 30\nbegin\nend\n", "the lines are 0, 8, 20"),
    "another processor of a route": ("clockboard 1\nroute 0 1 30\nbegin\nend\n", "processors 0 to 0"),
    "an unknown line": ("clockboard 1\nhosts 1000000 0\nbegin\nend\n", "is it `host`?"),
    "an equals sign": ("clockboard 1\ncpus=2\nbegin\nend\n", "without = , or :"),
    "no begin": ("clockboard 1\n0 0 step\nend\n", "the header ends with the line begin"),
    "a capital begin": ("clockboard 1\nBegin\nend\n", "begin in place of Begin"),
    "a space after begin": ("clockboard 1\nbegin \nend\n", "none at either end"),
    "a state after a line": ("clockboard 1\ncpus 1\nstate 43\nbegin\nend\n", "in place of host, guest"),
    "half a byte of a state": ("clockboard 1\nstate 434\nbegin\nend\n", "a byte is two hexadecimal digits"),
    "a state of version 2": ("clockboard 1\nstate 434c4b424f4152440200\nbegin\nend\n", "is taken in format 2"),
    "a state of version 5": ("clockboard 2\nstate 434c4b424f4152440500\nbegin\nend\n", "is taken in format 5"),
}
"""By name: the trace, and a part of the mend."""

IN_A_RECORD = {
    "a prefix": ("0 0 out 0x43 34", "43 in place of 0x43"),
    "an h": ("0 0 out 43h 34", "43 in place of 43h"),
    "a capital name": ("0 0 IN 40", "in in place of IN"),
    "an instruction": ("0 0 outb 43 34", "its name is `out` here"),
    "rdtsc": ("0 0 rdtsc", "its name is `rdmsr` here: 0 5000 rdmsr 10"),
    "a name with a slip": ("0 0 setp", "is it `step`?"),
    "no byte": ("0 0 out 43", "BYTE is missing; a line of this name: 0 0 out 43 34"),
    "a word": ("0 0 out 40 1234", "34, then 12"),
    "a decimal byte": ("0 0 out 40 100", "64 in place of 100"),
    "a decimal port": ("0 0 in 64", "40 in place of 64"),
    "another port": ("0 0 in 3f8", "the ports are 40, 41, 42, 43, 61, 70, 71"),
    "no width": ("0 0 hr f0", "W is missing"),
    "an address": ("0 0 hr fed000f0 8", "f0 in place of fed000f0"),
    "an address elsewhere": ("0 0 hr fec00000 4", "below 400"),
    "a width of 3": ("0 0 hr f0 3", "1, 2, 4 or 8 bytes"),
    "a width in bits": ("0 0 hr f0 64", "8 in place of 64"),
    "no value": ("0 0 hw 10 4", "HEX is missing"),
    "a value too wide": ("0 0 hw 10 4 100000000", "two a byte"),
    "a prefix of an MSR": ("0 0 rdmsr 0x10", "10 in place of 0x10"),
    "KVM's first MSR": ("0 0 wrmsr 12 1", "4b564d01 in place of 12"),
    "a decimal MSR": ("0 0 rdmsr 59", "3b in place of 59"),
    "another MSR": ("0 0 rdmsr c0000080", "an access to another one is left out"),
    "steal time": ("0 0 rdmsr 4b564d03", "steal time is no part of the board"),
    "another line": ("0 0 ack 2", "the lines are 0, 8, 20"),
    "a word too many": ("0 0 step 100", "nothing more comes here"),
    "a timer of format 2": ("0 0 counts hpet3", "clockboard 2 in the first line"),
    "a record of format 2": ("0 0 rose 0", "format 2 has `rose`"),
    "an end of interrupt": ("0 0 eoi", "format 3 has `eoi`: clockboard 3 in the first line"),
    "an MSR of a local APIC": ("0 0 wrmsr 832 20030", "format 3 has this MSR: clockboard 3 in the first line"),
    "a timer of a local APIC": ("0 0 counts apic0", "format 3 has timers of local APICs: clockboard 3"),
    "a local APIC without its processor": ("0 0 counts lapic", "as in apic0"),
    "an MSR of Hyper-V": ("0 0 wrmsr 40000021 1", "format 4 has this MSR: clockboard 4 in the first line"),
    "the reference page": ("0 0 hv", "format 4 has `hv`: clockboard 4 in the first line"),
    "no page": ("0 0 page", "P is missing"),
    "another page": ("0 0 page 1", "processors 0 to 0"),
    "another processor": ("3 0 step", "the line `cpus N`"),
    "processor and count in the other order": ("5000 0 step", "0 5000 step"),
    "no processor": ("5000 step", "a record has its processor and then its count: 0 5000 step"),
    "no processor and no count": ("in 40", "a record has its processor and its count first"),
    "a name of the processor": ("cpu0 0 step", "0 in place of cpu0"),
    "a count that falls": ("0 9 step\n0 5 step", "processor 0 was at 9"),
    "an exponent": ("0 1e3 step", "1000 in place of 1e3"),
    "a point": ("0 12.5 step", "12 in place of 12.5"),
    "a sign": ("0 -5 step", "have no sign"),
    "a comma": ("0 1,000 step", "1000 in place of 1,000"),
    "an underscore": ("0 1_000 step", "1000 in place of 1_000"),
    "leading zeros": ("0 007 step", "7 in place of 007"),
    "a hexadecimal count": ("0 ff step", "it is 255"),
    "a unit": ("0 5us step", "in nanoseconds it is 5000"),
    "a tab": ("0\t0 step", "a tab is no space"),
    "two spaces": ("0  0 step", "by one space"),
    "a space before": (" 0 0 step", "none at either end"),
    "a comment after a record": ("0 0 step # waits", "a comment has a line of its own"),
    "a comment by ;": ("; waits", "a comment is a line that begins with #"),
    "a comment by //": ("// waits", "a comment is a line that begins with #"),
    "a capital end": ("End", "end in place of End"),
    "an end of a processor": ("0 5000 end", "`end` alone"),
    "another end": ("stop", "end in place of stop"),
    "a line of the header": ("cpus 2", "is a line of the header, before begin"),
    "a move without a gap": ("0 0 move 3000000 500", "GAP is missing"),
    "a time of 18 years": ("0 576460752303423488 step", "2^59 ns are 18 years"),
    "a long comment": ("# " + "-" * 127, "at most 128 bytes"),
}
"""By name: a line after `begin`, or two, and a part of the mend."""

WHOLE = {
    "CR LF": (b"clockboard 1\r\nbegin\r\nend\r\n", "CR LF"),
    "a byte order mark": (b"\xef\xbb\xbfclockboard 1\nbegin\nend\n", "a byte order mark"),
    "UTF-16": ("\ufeffclockboard 1\nbegin\nend\n".encode("utf-16-le"), "the file is UTF-16"),
    "gzip": (gzip.compress(b"clockboard 1\nbegin\nend\n"), "zcat"),
    "no end": (b"clockboard 1\nbegin\n0 0 step\n", "echo end >> TRACE"),
    "no end of the last line": (b"clockboard 1\nbegin\n0 0 step", "printf '\\nend\\n' >> TRACE"),
    "nothing": (b"", "the file is empty"),
    "a printed text": (b"edge 4191 0 up\n5 1\nfinal 5000 1 0 0\n", "this is what is printed for a trace"),
    "a log of QEMU": (b"3862@1700000000.5:memory_region_ops_read cpu 0 mr 0x5 addr 0x40 value 0x0 size 1 name 'pit'\n",
                      "tools/import qemu"),
    "a log of KVM": (b"   qemu-1 [000] ..... 1.5: kvm_pio: pio_read at 0x71 size 1 count 1 val 0x26\n", "tools/import kvm"),
    "a start of the host": (b"clockboard 1\nhost 1000000 500\nbegin\n0 9 step\nend\n", "START of `host`, 500"),
}
"""By name: the file, and a part of the mend."""


CHARACTERS = {
    "lone carriage returns": ("clockboard 1\rbegin\r0 0 step\rend\r", "lines end with CR alone here"),
    "a blank behind end": ("clockboard 1\nbegin\nend \n", "a space stands behind `end`; the last line is these three letters alone"),
    "a line of blanks": ("clockboard 1\nbegin\n   \nend\n", "the line has spaces alone"),
    "spaces before each line": ("    clockboard 1\n    begin\n    end\n", "the line has one before its first word"),
    "a no-break space": ("clockboard 1\nbegin\n0\u00a00 step\nend\n", "a no-break space is no space: sed -i 's/\\xc2\\xa0/ /g' TRACE"),
    "a space without width": ("clockboard 1\nbegin\n0 0 st\u200bep\nend\n", "a character without width (U+200B)"),
    "quotes of a word processor": ("clockboard 1\nbegin\n0 0 out \u201c43\u201d 34\nend\n", "words have no quotes"),
    "a minus of a word processor": ("clockboard 1\nbegin\n0 \u22125 step\nend\n", "a dash (U+2212)"),
    "a wide digit": ("clockboard 1\nbegin\n\uff10 0 step\nend\n", "(U+FF10) only looks like 0"),
    "a letter of Latin 1": (b"clockboard 1\nbegin\n0 0 step \xe9\nend\n", "byte e9h is no ASCII, and no UTF-8 either"),
    "a vertical tab": ("clockboard 1\nbegin\n0\v0 step\nend\n", "a vertical tab stands in the line"),
    "a byte of 0 in a line": ("clockboard 1\nbegin\n0 0 st\0ep\nend\n", "a byte 00h stands in the line"),
    "a semicolon at the end": ("clockboard 1\nbegin\n0 0 step;\nend\n", "the line ends with ';'"),
    "commas": ("clockboard 1\nbegin\n0,0,step\nend\n", "not by commas: 0 0 step"),
    "ends of lines as two letters": ("clockboard 1\\nbegin\\nend\\n", "the two letters \\n stand where a line is to end"),
}
"""Characters that look right: the file, and the one thing that is said of it."""

NUMBERS = {
    "a count of 2^64": ("0 18446744073709551616 step", "a number is below 2^64: 18446744073709551615 is the greatest"),
    "a value of 17 digits": ("0 0 wrmsr 10 10000000000000000", "at most 16 hexadecimal digits"),
    "a byte of 300": ("0 0 out 43 300", "a byte is at most ff"),
    "a binary byte": ("0 0 out 43 0b00110100", "in hexadecimal it is 34"),
    "a letter that is no digit": ("0 0 out 43 3G", "G is no hexadecimal digit"),
    "the letter O": ("0 O step", "the letter O stands where the digit 0 is meant"),
    "the letter l": ("0 1l0 step", "the letter l stands where the digit 1 is meant: 110"),
    "a processor with a sign": ("-1 0 step", "a processor is a number from 0 on, without a sign"),
    "a time of day": ("0 00:00:01 step", "in nanoseconds it is 1000000000"),
    "a value of a read": ("0 0 in 40 26", "a trace has no value of a read"),
    "a write without a port": ("0 0 out 34", "`out` has a port and then a byte"),
    "two records in a line": ("0 0 step 0 5 step", "here a second one begins: 0 5 step"),
    "a line by its name": ("0 0 ack irq0", "a line is its number alone: 0 in place of irq0"),
    "a vector in place of a line": ("0 0 ack 30", "names the line, and not its vector"),
    "a timer without its number": ("0 0 counts hpet", "hpet0, hpet1 or hpet2"),
    "begin twice": ("begin", "`begin` stands once, and line 2 is it already"),
    "a second trace": ("0 0 step\nclockboard 1\nbegin\n0 5 step", "a second trace begins here"),
    "a long value": (f"0 0 hw 10 4 {'0' * 120}1", "this one has 133"),
}
"""Lines after `begin`, and the one thing that is said of them."""

HEADERS = {
    "a policy of others": ("policy drop drop drop", "the policy `drop` is nearest to `discard` here"),
    "libvirt's policy": ("policy delay catchup delay", "the policy `catchup` is nearest to `slew` here"),
    "a year of four digits": ("rtc 58 59 11 03 14 11 2023", "23 in place of 2023"),
    "a time with colons": ("rtc 11:59:58 03 14 11 23", "58 59 11 in place of 11:59:58"),
    "milliseconds": ("wall 1700000000000 0", "1700000000 in place of 1700000000000, if that is milliseconds"),
    "a time before 1970": ("wall -1 0", "begins with 1970"),
    "a state with spaces": ("state 43 4c 4b 42", "leave the spaces out"),
    "a state with a prefix": ("state 0x434c4b42", "leave 0x out"),
    "routes in another order": ("route 8 0 38\nroute 0 0 30", "rising order of their lines, and line 8 comes before 0"),
    "a route twice": ("route 0 0 30\nroute 0 0 31", "line 0 has a route already"),
    "catch-up points 0 ns apart": ("slew 0", "1 to 1000000000 ns apart"),
}
"""Lines before `begin`, and the first thing that is said of them."""

FILES = {
    "zeros": (bytes(4096), "the file is 4096 bytes of 00 and nothing else"),
    "a program": (b"\x7fELF\x02\x01\x01" + bytes(500), "this is a program (ELF)"),
    "bytes of any kind": (bytes(range(256)) * 8, "this is no text: byte 0 is 00h"),
    "bytes of a saved state": (b"CLKBOARD\x01\0\x01\0" + bytes(541), "these are the bytes of a saved state"),
    "UTF-16 without a mark": ("clockboard 1\nbegin\nend\n".encode("utf-16-be"), "iconv -f UTF-16BE"),
    "UTF-32": ("clockboard 1\nbegin\nend\n".encode("utf-32"), "the file is UTF-32"),
    "xz": (lzma.compress(b"clockboard 1\nbegin\nend\n"), "the file is packed by xz: xz -dc TRACE"),
    "bzip2": (bz2.compress(b"clockboard 1\nbegin\nend\n"), "the file is packed by bzip2"),
    "JSON": (b'{"trace": []}\n', "this is JSON"),
    "a wave file": (b"$timescale 1 ns $end\n", "this is a wave file"),
    "a peer's file": (b"# What the peer answered, by the lines of the trace: ..\nstamp 1000\n", "this is a peer's file"),
    "a page": (b"<!DOCTYPE html>\n<html>\n", "this is a page of HTML"),
    "a patch": (b"--- a.trace\n+++ b.trace\n", "this is a patch"),
    "a prompt": (b"$ cat t\nclockboard 1\nbegin\nend\n", "a prompt of a shell's"),
    "Markdown": (b"```text\nclockboard 1\nbegin\nend\n```\n", "marks of Markdown"),
    "numbers of lines": (b"1 clockboard 1\n2 begin\n3 end\n", "the lines have their numbers before them"),
}
"""Files that are no trace, and the one thing that is said of them."""


def states() -> dict[str, tuple[str, str]]:
    """Saved states that lost a part, or that have too much: the trace, and the one thing that is said of it."""
    done = subprocess.run([support.program(), "replay", "--state"], input=b"clockboard 1\nbegin\nend\n", capture_output=True, check=True)
    state = done.stdout.decode().split()[-1]
    told = {
        "a state without its end": (state[:400], "the state has 200 bytes, and one of version 1 with so many processors has 553"),
        "a state without its head": (state[:18], "which isn't even its head"),
        "half a byte missing": (state[:-1], "which is odd"),
        "a byte too many": (state + "00", "the state has 554 bytes"),
        "a state that was folded": (f"{state[:76]}\n{state[76:152]}\n{state[152:]}", "the state goes on in the next line"),
    }
    return {name: (f"clockboard 1\nstate {text}\nbegin\nend\n", mend) for name, (text, mend) in told.items()}


def alone() -> dict[str, tuple[bytes, str]]:
    """Each mistake of which one thing is said and nothing else: the file, and a part of it."""
    texts: dict[str, tuple[str | bytes, str]] = {**CHARACTERS, **FILES, **states()}
    texts |= {name: (f"clockboard 1\nbegin\n{line}\nend\n", mend) for name, (line, mend) in NUMBERS.items() if name != "a vector in place of a line"}
    return {name: (text if isinstance(text, bytes) else text.encode(), mend) for name, (text, mend) in texts.items()}


def table() -> dict[str, tuple[bytes, str]]:
    """Each mistake: the file, and a part of the mend."""
    found = {name: (trace.encode(), mend) for name, (trace, mend) in IN_THE_HEADER.items()}
    found |= {name: (f"clockboard 1\nbegin\n{line}\nend\n".encode(), mend) for name, (line, mend) in IN_A_RECORD.items()}
    found |= {name: (f"clockboard 1\n{line}\nbegin\nend\n".encode(), mend) for name, (line, mend) in HEADERS.items()}
    found |= {name: (f"clockboard 1\nbegin\n{line}\nend\n".encode(), mend) for name, (line, mend) in NUMBERS.items()}
    return found | WHOLE | alone()
