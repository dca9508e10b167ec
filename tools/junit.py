"""Reports of tests in the XML of JUnit, as tools/expect writes them."""
import os
import re
import stat
from xml.etree import ElementTree

from common import Fault, Taken, put_whole, shown, system_words

BEGIN = re.compile(rb'(?:\xef\xbb\xbf)?\s*(?:<\?xml[^>]*>\s*)?<testsuites?[\s>/]')
LOOKED_AT = 1024  # bytes in which a report has begun


def seconds(lines):
    return '%.6f' % sum(line.seconds for line in lines)


def case_of(script, line):
    """The test case of a line."""
    case = ElementTree.Element('testcase', classname=script.name, name='line %d: %s' % (line.number, line.name()),
                               time=seconds([line]))
    if line.differs():
        text = line.told()
        ElementTree.SubElement(case, 'failure', message='; '.join(text)).text = '\n'.join(text)
    return case


def suite_of(script):
    """The test cases of a script."""
    lines = script.compared()
    suite = ElementTree.Element('testsuite', name=script.name, tests=str(len(lines)), errors='0', skipped='0',
                                failures=str(len(script.failed())), time=seconds(lines))
    suite.extend([case_of(script, line) for line in lines])
    return suite


class Report:
    """A file for a report. Only a report is replaced."""

    def __init__(self, path):
        self.path = path
        if not os.path.isdir(os.path.dirname(path) or '.'):
            raise Fault('%s: there is no such folder' % shown(os.path.dirname(path)))
        self.look()

    def look(self):
        """Sees that nothing is there, or a report."""
        try:
            if self.path and stat.S_ISREG(os.lstat(self.path).st_mode):
                with open(self.path, 'rb') as file:
                    if BEGIN.match(file.read(LOOKED_AT)):
                        return
        except FileNotFoundError:
            return
        except OSError as error:
            raise Fault(system_words(error, self.path)) from None
        raise Taken('%s is no report of JUnit: it stays as it is' % (shown(self.path) or 'an empty name'))

    def write(self, scripts):
        """Writes the report whole, in the place of one that may be there."""
        suites = ElementTree.Element('testsuites')
        suites.extend([suite_of(script) for script in scripts])
        ElementTree.indent(suites)
        content = ElementTree.tostring(suites, encoding='utf-8', xml_declaration=True) + b'\n'
        self.look()
        put_whole(self.path, content)
