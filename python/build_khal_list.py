"""Builds the wheel of khal_list, which holds the shared library that `make lib` makes. It needs nothing but Python."""
import base64
import hashlib
import os
import platform
import zipfile

NAME, VERSION = 'khal_list', '0.1.0'
HERE = os.path.dirname(os.path.abspath(__file__))
LIBRARY = os.environ.get('KHAL_LIST') or os.path.join(HERE, '..', 'lib', 'libkhal_list.so.0')
INFO = f'{NAME}-{VERSION}.dist-info'
TAG = f'py3-none-linux_{platform.machine()}'


def metadata():
    return f'Metadata-Version: 2.1\nName: {NAME}\nVersion: {VERSION}\nRequires-Python: >=3.9\n'.encode()


def wheel_file():
    return f'Wheel-Version: 1.0\nGenerator: {NAME}\nRoot-Is-Purelib: false\nTag: {TAG}\n'.encode()


def files():
    """The files of the package, and the library."""
    folder = os.path.join(HERE, NAME)
    for name in sorted(os.listdir(folder)):
        if name.endswith('.py') or name == 'py.typed':
            with open(os.path.join(folder, name), 'rb') as file:
                yield f'{NAME}/{name}', file.read()
    if not os.path.exists(LIBRARY):
        raise SystemExit(f'{LIBRARY} is not there: run make lib first')
    with open(LIBRARY, 'rb') as file:
        yield f'{NAME}/libkhal_list.so.0', file.read()


def record(name, data):
    digest = base64.urlsafe_b64encode(hashlib.sha256(data).digest()).rstrip(b'=').decode()
    return f'{name},sha256={digest},{len(data)}\n'


def build_wheel(wheel_directory, config_settings=None, metadata_directory=None):
    """Writes the wheel, and gives its name."""
    wheel = f'{NAME}-{VERSION}-{TAG}.whl'
    members = [*files(), (f'{INFO}/METADATA', metadata()), (f'{INFO}/WHEEL', wheel_file())]
    records = ''.join(record(name, data) for name, data in members) + f'{INFO}/RECORD,,\n'
    with zipfile.ZipFile(os.path.join(wheel_directory, wheel), 'w', zipfile.ZIP_DEFLATED) as archive:
        for name, data in [*members, (f'{INFO}/RECORD', records.encode())]:
            archive.writestr(name, data)
    return wheel

