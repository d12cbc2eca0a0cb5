#!/usr/bin/env python3
"""Respells a checkout from before docs/DESIGN-PASS.md in the names of Result and Option: tools/respell_results.py FOLDER

In crates/ it writes Ok for Done, Err for Refused, None for Closed and Some for Word, and imports Result and Option for the enums Answer and SignalWord,
so that what is left between that folder and a later one differs by more than these words."""
import os
import re
import sys

ROOT = sys.argv[1]
ANSWER = 'Rattle.definition.specs.declared.Answer.{Answer}'
ANSWERS = re.compile(r'Rattle\.definition\.specs\.declared\.Answer\.TheVariants\.\{([^}]*)\}')
SIGNALS = re.compile(r'Rattle\.definition\.specs\.declared\.SignalWord\.TheVariants\.\{([^}]*)\}')


def files(ending):
    for folder, below, names in os.walk(os.path.join(ROOT, 'crates')):
        below[:] = [name for name in below if name != 'out']
        yield from (os.path.join(folder, name) for name in names if name.endswith(ending))


def but_comments(line, change, mark):
    at = line.find(mark)
    return change(line) if at < 0 else change(line[:at]) + line[at:]


def results(line):
    line = re.sub(r'(?<!\w)Done(?!\w)', 'Ok', line)
    return re.sub(r'(?<!\w)Refused(?!\w)', 'Err', line)


def imports(line):
    line = line.replace(ANSWER, 'Rattle.definition.specs.Status.{Answer}')
    line = ANSWERS.sub(r'Rattle.std.specs.declared.result.Result.TheVariants.{\1}', line)
    line = line.replace('Rattle.definition.specs.declared.SignalWord.{SignalWord}', 'Rattle.definition.specs.Signal.{SignalWord}')
    return SIGNALS.sub(r'Rattle.std.specs.declared.option.Option.TheVariants.{\1}', line)


def antt(line):
    if re.search(r'(mod|proofs\.|specs\.)\s*Refused\b', line):
        return line
    return results(imports(line))


def signals(line):
    return re.sub(r'(?<!\w)Word(?!\w)', 'Some', re.sub(r'(?<!\w)Closed(?!\w)', 'None', line))


def code(line):
    for old, new in (('Answer::Done(', 'Ok('), ('Answer::Refused(', 'Err('), ('SignalWord::Closed', 'None'), ('SignalWord::Word(', 'Some(')):
        line = line.replace(old, new)
    line = imports(line)
    spoken = line.lstrip().startswith('ghost use') or 'ensures' in line or 'requires' in line
    return results(line) if spoken else line


def edit(line):
    if not re.match(r'(old|new):', line):
        return line
    return code(line) if '::' in line else antt(line)


def main():
    for ending, change, mark in (('.antt', antt, '--'), ('.rt', code, '//'), ('.edit', edit, '\0')):
        for name in list(files(ending)):
            with open(name, encoding='utf-8') as file:
                text = file.read()
            lines = [but_comments(line, change, mark) for line in text.split('\n')]
            if ending == '.antt' and 'SignalWord' in text:
                lines = [but_comments(line, signals, mark) for line in lines]
            with open(name, 'w', encoding='utf-8') as file:
                file.write('\n'.join(lines))


main()
