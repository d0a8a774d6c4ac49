"""The readers that are compared: how each is installed, made and called, and what it tells of a file. Each call runs in a process of its own, with a
limit of time and one of memory.

What a reader tells of a file is a `Told`: its fields in order, its errors in order, what it printed, and how it ended where it did not end well. A
field is (place among the things asked for, what it says of itself, the double of each point, the presence of each point).
"""
import collections
import json
import os
import resource
import shutil
import signal
import struct
import subprocess
import sys
import tempfile

from tests.help import grib
from tools import TOP, archive, debian

SECONDS = 10
MEMORY = 1 << 30
# What a program of ours ends with where the fault is not the reader's.
OWN_FAULT = 2
HERE = os.path.dirname(os.path.abspath(__file__))
COMPILER = ['gcc', *archive.FLAGS, '-O2']
# How many numbers Skeptolyr describes a field by: on a grid in degrees, and on a Lambert grid.
DEGREES, DESCRIPTION = 53, 60

Told = collections.namedtuple('Told', 'fields errors printed ended')
Field = collections.namedtuple('Field', 'thing says doubles presence')
Ran = collections.namedtuple('Ran', 'octets printed ended')


# ---- processes

def limit():
    """The memory that a process may take for its data. The stack and the emulator's reserved addresses are not counted."""
    resource.setrlimit(resource.RLIMIT_DATA, (MEMORY, MEMORY))
    resource.setrlimit(resource.RLIMIT_CORE, (0, 0))


def ran(command, octets=b''):
    """What a command wrote, what it printed besides, and how it ended: None where it ended well."""
    try:
        done = subprocess.run(command, input=octets, stdout=subprocess.PIPE, stderr=subprocess.PIPE, timeout=SECONDS, preexec_fn=limit,
                              env=dict(os.environ, LC_ALL='C'))
    except subprocess.TimeoutExpired:
        return Ran(b'', set(), 'no end in %d s' % SECONDS)
    printed = set(done.stderr.decode(errors='replace').split('\n')) - {''}
    ended = None
    if done.returncode < 0:
        ended = 'crash (%s)' % signal.Signals(-done.returncode).name
    elif done.returncode:
        ended = 'ends with %d' % done.returncode
    return Ran(done.stdout, printed, ended)


# ---- programs in C

def told_files(octets, numbers):
    """What a program told of each file, in the form that told.h describes under `partly`: its fields, and its errors. A field has so many numbers."""
    def number():
        nonlocal at
        at += 8
        return int.from_bytes(octets[at - 8:at], 'big')

    def field(thing):
        nonlocal at
        says, points = [number() for _ in range(numbers)], number()
        doubles, presence = octets[at:at + 8 * points], octets[at + 8 * points:at + 9 * points]
        at += 9 * points
        return Field(thing, says, doubles, presence)

    at, found = 0, []
    while at < len(octets):
        fields, errors = [], []
        for thing in range(number()):
            error = number()
            (errors if error else fields).append((thing, error) if error else field(thing))
        found.append((fields, errors))
    if at != len(octets):
        sys.exit('readers: a program wrote what cannot be read')
    return found


class Program:
    """A reader that a program of ours in C calls."""

    def __init__(self, name, package, header, source, flags, numbers, packing=()):
        """A field has so many numbers; those of `packing`, from 0, tell how it is packed and not what it is, and are not compared."""
        self.name, self.package, self.header, self.source, self.flags, self.numbers, self.packing = name, package, header, source, flags, numbers, packing

    def is_here(self):
        return debian.has_header(self.header)

    def make(self):
        out = os.path.join(TOP, 'target', 'peers-' + self.source)
        os.makedirs(os.path.dirname(out), exist_ok=True)
        subprocess.run(COMPILER + [os.path.join(HERE, self.source + '.c'), *self.flags, '-lm', '-o', out], check=True)
        self.command = [out]

    def tell(self, file):
        done = ran(self.command + ['partly'], grib.number(len(file), 8) + file)
        if done.ended == 'ends with %d' % OWN_FAULT:
            sys.exit('readers: %s' % done.printed)
        fields, errors = ([], []) if done.ended else told_files(done.octets, self.numbers)[0]
        fields = [field._replace(says=[number for at, number in enumerate(field.says) if at not in self.packing]) for field in fields]
        return Told(fields, errors, done.printed, done.ended)


class Skeptolyr(Program):
    """The archive that users link."""

    def __init__(self, given):
        # The status, the kind of process, and all from N to where the sections start are not compared: these are places of one file only.
        super().__init__('Skeptolyr', None, None, 'skeptolyr', [], DESCRIPTION, {1, 21, *range(40, DEGREES)})
        self.given = given

    def make(self):
        if self.given:
            self.flags = [self.given]
            super().make()
        else:
            self.command = archive.program('skeptolyr', os.path.join('tests', 'peers', 'skeptolyr.c'), name='peers-skeptolyr')

    def sayings(self, numbers):
        """What is compared of a description's numbers, as told.h has them, with zeros for those that a grid in degrees lacks."""
        whole = [*numbers, *[0] * (DESCRIPTION - len(numbers))]
        return [number % 2 ** 64 for at, number in enumerate(whole) if at not in self.packing]


# ---- GDAL, through its commands

class Gdal:
    name, package = 'GDAL', 'gdal-bin'
    settings = ['--config', 'GDAL_PAM_ENABLED', 'NO', '--config', 'GRIB_NORMALIZE_UNITS', 'NO']
    # What stands for a missing point where a band does not tell, as those of 5.3 do not.
    missing = 9999.0
    # Metadata of a band beside its geometry.
    metadata = ('GRIB_DISCIPLINE', 'GRIB_ELEMENT', 'GRIB_SHORT_NAME', 'GRIB_REF_TIME', 'GRIB_FORECAST_SECONDS', 'GRIB_VALID_TIME', 'GRIB_PDS_PDTN')

    def is_here(self):
        return shutil.which('gdalinfo') is not None and shutil.which('gdal_translate') is not None

    def make(self):
        """There is nothing to make."""

    def tell(self, file):
        with tempfile.TemporaryDirectory() as folder:
            path = os.path.join(folder, 'file.grib2')
            with open(path, 'wb') as out:
                out.write(file)
            info = ran(['gdalinfo', '-json', *self.settings, path])
            if info.ended and info.ended.startswith('ends'):
                return Told([], [(0, info.ended)], info.printed, None)
            if info.ended:
                return Told([], [], info.printed, info.ended)
            # The driver prints its warnings before what gdalinfo prints.
            warnings, brace, rest = info.octets.decode().partition('{\n')
            return self.tell_bands(json.loads(brace + rest), path, os.path.join(folder, 'band'), info.printed | set(warnings.split('\n')) - {''})

    def tell_bands(self, told, path, band, printed):
        """Every band, each by a gdal_translate of its own. The driver knows one grid a file."""
        fields, errors, printed = [], [], {line.replace(path, 'FILE') for line in printed}
        for thing, about in enumerate(told.get('bands', [])):
            done = ran(['gdal_translate', '-q', '-of', 'ENVI', '-ot', 'Float64', '-b', str(thing + 1), *self.settings, path, band])
            printed |= {line.replace(path, 'FILE') for line in done.printed | set(done.octets.decode(errors='replace').split('\n')) - {''}}
            if done.ended and not done.ended.startswith('ends'):
                return Told(fields, errors, printed, done.ended)
            if done.ended:
                errors.append((thing, done.ended))
                continue
            metadata = about.get('metadata', {}).get('', {})
            says = [told['size'], told.get('geoTransform'), about.get('description')] + [metadata.get(name) for name in self.metadata]
            fields.append(Field(thing, says + [pds_of(metadata)], *band_values(band, about.get('noDataValue', self.missing))))
        return Told(fields, errors, printed, None)


def pds_of(metadata):
    return metadata.get('GRIB_PDS_TEMPLATE_ASSEMBLED_VALUES', metadata.get('GRIB_PDS_TEMPLATE_NUMBERS'))


def band_values(band, missing):
    """The doubles that gdal_translate wrote, as this machine lays them down, and which of them are not the value that stands for missing."""
    with open(band, 'rb') as raw:
        octets = raw.read()
    values = struct.unpack('=%dd' % (len(octets) // 8), octets)
    present = bytes(int(value != missing) for value in values)
    return b''.join(struct.pack('>d', value if mark else 0.0) for value, mark in zip(values, present)), present


def peers():
    return [Program('ecCodes', 'libeccodes-dev', 'eccodes.h', 'eccodes', ['-leccodes'], 43, range(36, 43)),
            Program('g2c', 'libg2c-dev', 'grib2.h', 'g2c', ['-lg2c'], 27), Gdal()]


# ---- installing

def install(readers):
    """Installs what is missing from Debian's packages. The answer is the readers that are there, and the names of those that are left out."""
    missing = [reader.package for reader in readers if not reader.is_here()]
    debian.install(missing + (['gcc', 'libc6-dev'] if shutil.which('gcc') is None else []))
    here = [reader for reader in readers if reader.is_here()]
    return here, [reader.name for reader in readers if reader not in here]


def version(package):
    return subprocess.run(['dpkg-query', '-W', '-f', '${Version}', package], stdout=subprocess.PIPE, check=True).stdout.decode()
