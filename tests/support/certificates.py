"""Certificates for tests, by openssl: an authority, and what it signs."""
import os
import subprocess

_CONFIG = """[ca]
default_ca = own
[own]
dir = {room}
database = {room}/{name}.index
new_certs_dir = {room}
certificate = {room}/{name}.pem
private_key = {room}/{name}.key
rand_serial = yes
default_md = sha256
policy = any
copy_extensions = copy
[any]
commonName = supplied
[authority]
basicConstraints = critical,CA:true
keyUsage = critical,keyCertSign,cRLSign
subjectKeyIdentifier = hash
"""
_KEY = ["-newkey", "ec", "-pkeyopt", "ec_paramgen_curve:prime256v1", "-nodes"]


def _openssl(*words):
    subprocess.run(
        ["openssl", *words],
        check=True,
        stdin=subprocess.DEVNULL,
        stdout=subprocess.DEVNULL,
        stderr=subprocess.PIPE,
    )


class Authority:
    """An authority with its files in a folder: `NAME.pem` and `NAME.key`."""

    def __init__(self, room, name):
        self.room, self.name = room, name
        self.path = f"{room}/{name}.pem"
        self._config = f"{room}/{name}.conf"
        with open(self._config, "w") as file:
            file.write(_CONFIG.format(room=room, name=name))
        with open(f"{room}/{name}.index", "w"):
            pass
        words = [
            "req",
            "-x509",
            "-config",
            self._config,
            "-extensions",
            "authority",
            *_KEY,
            "-days",
            "3650",
            "-subj",
            f"/CN={name}",
        ]
        _openssl(*words, "-keyout", f"{room}/{name}.key", "-out", self.path)

    def signed(self, name, *names, begin="20200101000000Z", end="20991231235959Z"):
        """The paths of a certificate and of its key, whose name is `name`: of a server with these
        names, or else of a client."""
        stem = f"{self.room}/{name}-{self.name}"
        words = [
            "req",
            "-new",
            *_KEY,
            "-subj",
            f"/CN={name}",
            "-keyout",
            f"{stem}.key",
            "-out",
            f"{stem}.csr",
        ]
        if names:
            told = ",".join(
                f"IP:{it}" if it.replace(".", "").isdigit() else f"DNS:{it}" for it in names
            )
            words += ["-addext", f"subjectAltName={told}"]
        _openssl(*words)
        words = [
            "ca",
            "-batch",
            "-notext",
            "-config",
            self._config,
            "-in",
            f"{stem}.csr",
            "-out",
            f"{stem}.crt",
        ]
        _openssl(*words, "-startdate", begin, "-enddate", end)
        return f"{stem}.crt", f"{stem}.key"

    def both(self, name, *names, **how):
        """The path of a file with the certificate and its key, as HAProxy takes them."""
        path = f"{self.room}/{name}-{self.name}.both"
        with open(path, "w") as file:
            for it in self.signed(name, *names, **how):
                with open(it) as part:
                    file.write(part.read())
        os.chmod(path, 0o600)
        return path
