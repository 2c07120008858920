"""Values of a team's server that are signed or compressed, for tests/team_servers.py: what `cck_cache seal` writes, beside
openssl and Python's hmac, and values that a reader must not use."""
import hashlib
import hmac
import re
import subprocess

# Keys for signatures.
KEY = "signing-key.of-the_test~one"
OTHER_KEY = "signing-key.of-the_test~two"
KEYS = [KEY, OTHER_KEY]
SIGNED, ZSTD, FRAME = b"cck signed 1\n", b"cck zstd 1\n", b"\x28\xb5\x2f\xfd"
NAME = "0123456789abcdef" * 4
# Test cases 1, 3, 4 and 6 of RFC 4231: a key, a message, and HMAC-SHA-256.
RFC_4231 = [
    (b"\x0b" * 20, b"Hi There", "b0344c61d8db38535ca8afceaf0bf12b881dc200c9833da726e9376c2e32cff7"),
    (b"\xaa" * 20, b"\xdd" * 50, "773ea91e36800e46854db8ebd09181a72959098b3ef8c122d9635514ced565fe"),
    (bytes(range(1, 26)), b"\xcd" * 50, "82558a389a443c0ea4cc819899f2083a85f0faa3e578f8077a2e3ff46729665b"),
    (b"\xaa" * 131, b"Test Using Larger Than Block-Size Key - Hash Key First",
     "60e431591ee0b67f0d8a26aacbf5b77f8e0bc6213728c5140546040f0ee37f54"),
]
# Contents of files of keys that are too short.
SHORT = [b"", b"\n", b"fifteen bytes..", b"fifteen bytes..\n"]


def signature(key, kind, name, data):
    """What Python's hmac makes of these bytes under a name."""
    return hmac.new(key, b"%s\n%s\n%s" % (kind.encode(), name.encode(), data), hashlib.sha256).digest()


def signed(key, kind, name, data):
    """A signed value."""
    return SIGNED + signature(key, kind, name, data) + data


def content(value):
    """A value without its signature."""
    return value[len(SIGNED) + 32:] if value.startswith(SIGNED) else value


def compress(data):
    """A frame."""
    return subprocess.run(["zstd", "-1cq"], input=data, stdout=subprocess.PIPE, check=True).stdout


def expanded(value):
    """What a value says: the bytes before a frame, and what the frame has."""
    at = value.find(FRAME)
    if at < 0:
        return value
    done = subprocess.run(["zstd", "-dcq"], input=value[at:], capture_output=True, check=False)
    return (value[:at], done.stdout) if done.returncode == 0 else value


def place_of(name):
    """The kind and the name of a value by its name at a server."""
    return re.search(r"(entry|object)[:/](?:[0-9a-f]{2}/)?([0-9a-f]{64})$", name).groups()


def seal(program, data, kind, name, **options):
    """What `seal` writes, its status and its messages."""
    words = [f"--{option.replace('_', '-')}={value}" for option, value in options.items()]
    done = subprocess.run([program, "seal", kind, name, *words], input=data, capture_output=True, check=False)
    return done.returncode, done.stdout, done.stderr


def by_openssl(key, message):
    """What openssl makes of a message. The key is one of the tests."""
    return subprocess.run(["openssl", "dgst", "-sha256", "-mac", "HMAC", "-macopt", "hexkey:" + key.hex(), "-binary"],
                          input=message, stdout=subprocess.PIPE, check=True).stdout


def seals(test):
    """What `seal` writes."""
    program, path = test.variables["CCK_PROGRAM"], test.room / "key"
    for data in (b"", b"x", bytes(range(256)) * 300):
        test.check("seal, without an option", seal(program, data, "entry", NAME), (0, data, b""))
    for number, (key, message, wanted) in enumerate(RFC_4231):
        test.check(f"RFC 4231, {number}", hmac.new(key, message, hashlib.sha256).hexdigest(), wanted)
        test.check(f"RFC 4231, {number}: openssl", by_openssl(key, message).hex(), wanted)
        for end in (b"", b"\n"):
            path.write_bytes(key + end)
            for kind, data in (("entry", message), ("object", message), ("object", b""), ("entry", message * 5000)):
                label = f"seal, key {number} with {end}, {kind} of {len(data)} bytes"
                wanted = 0, signed(key, kind, NAME, data), b""
                test.check(label, seal(program, data, kind, NAME, sign_key=path), wanted)
                by = by_openssl(key, f"{kind}\n{NAME}\n".encode() + data)
                test.check(f"{label}: openssl", wanted[1][len(SIGNED):][:32], by)
    frame = compress(b"text" * 1000)
    status, plain, _ = seal(program, frame, "object", NAME, expanded=4000)
    found = status, plain.startswith(ZSTD), plain.endswith(frame), len(plain) < len(frame) + 64
    test.check("seal, a frame", found, (0, True, True, True))
    wanted = 0, signed(RFC_4231[-1][0], "object", NAME, plain), b""
    test.check("seal, a frame that is signed", seal(program, frame, "object", NAME, expanded=4000, sign_key=path), wanted)
    for text in SHORT:
        path.write_bytes(text)
        status, data, messages = seal(program, b"x", "entry", NAME, sign_key=path)
        test.check(f"seal, the key {text}", (status, (data + messages)[:6]), (1, b"error:"))
    status, data, messages = seal(program, b"x", "entry", NAME, sign_key=test.room / "none")
    test.check("seal, no key", (status, (data + messages)[:6]), (1, b"error:"))


class Keys:
    """Files of keys, and the variables that name them."""

    def __init__(self, room):
        self.paths = {}
        for key in KEYS:
            self.paths[key] = room / f"key_{KEYS.index(key)}"
            self.paths[key].write_text(key + "\n")

    def signs(self, key=KEY):
        return {"CCK_SIGN_KEY": str(self.paths[key])}

    def verifies(self, key=KEY):
        return {"CCK_VERIFY_KEY": str(self.paths[key])}

    def both(self):
        return {**self.signs(), **self.verifies()}


def forgeries(kind, name, value, values):
    """Values that are not signed by the key for their names, and how each was made."""
    data = content(value)
    yield "unsigned", data
    yield "another key's", signed(OTHER_KEY.encode(), kind, name, data)
    yield "the empty key's", signed(b"", kind, name, data)
    yield "another kind's", signed(KEY.encode(), {"entry": "object", "object": "entry"}[kind], name, data)
    yield "another name's", signed(KEY.encode(), kind, name[::-1], data)
    yield "with the digest alone", SIGNED + hashlib.sha256(f"{kind}\n{name}\n".encode() + data).digest() + data
    yield "with other contents", value[:len(SIGNED) + 32] + data[:-1] + bytes([data[-1] ^ 1])
    yield "cut", value[:-1]
    yield "longer", value + b"\n"
    for end in (0, 5, len(SIGNED), len(SIGNED) + 31, len(SIGNED) + 32):
        yield f"cut after {end} bytes", value[:end]
    yield from (("another value", other) for other in values if other != value)


def bombs(program, kind, name, data):
    """Compressed values that are not to be used, and how each was made."""
    frame, size = compress(data), len(data)
    large = compress(bytes(150000000))
    for label, bad, told in (
            ("with another size", frame, size - 1), ("with a larger size", frame, size + 1), ("of no bytes", frame, 0),
            ("cut", frame[:-5], size), ("cut in its header", frame[:3], size), ("that is none", b"x" * 99, size),
            ("without a frame", b"", size), ("with more after it", frame + b"x", size),
            ("of another file", compress(b"x" * size), size),
            ("that is a bomb", large, size), ("that is a bomb, and says so", large, 150000000),
            ("of a size that no reader takes", frame, 10 ** 18)):
        status, value, _ = seal(program, bad, kind, name, expanded=told)
        if status == 0:
            yield label, value
