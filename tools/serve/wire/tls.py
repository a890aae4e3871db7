"""TLS between machines, and the certificates of a store: one for each node, of an authority of the store's own."""

import os
import ssl
import subprocess


class BadCertificate(Exception):
    """Certificates that cannot be read or made, with the cause."""


def contexts(cluster, number):
    """For being called and for calling; nothing where the store has no certificates."""
    if not cluster.certificates:
        return None, None
    folder = cluster.certificates
    try:
        both = ssl.SSLContext(ssl.PROTOCOL_TLS_SERVER), ssl.SSLContext(ssl.PROTOCOL_TLS_CLIENT)
        for one in both:
            one.minimum_version = ssl.TLSVersion.TLSv1_2
            one.check_hostname = False  # a node is known by its number, not by its address
            one.verify_mode = ssl.CERT_REQUIRED
            one.load_verify_locations(os.path.join(folder, "store.crt"))
            one.load_cert_chain(
                os.path.join(folder, f"node-{number}.crt"), os.path.join(folder, f"node-{number}.key")
            )
    except (OSError, ssl.SSLError) as fault:
        raise BadCertificate(f"{folder}: certificates of node {number}: {fault}") from None
    return both


def openssl(folder, *words):
    try:
        done = subprocess.run(
            ["openssl", *words], cwd=folder, stdin=subprocess.DEVNULL, capture_output=True, check=False
        )
    except FileNotFoundError:
        raise BadCertificate("openssl is not on the PATH") from None
    if done.returncode:
        raise BadCertificate(f"openssl {words[0]}: {done.stderr.decode('utf-8', 'replace').strip()}")


def make(folder, nodes):
    """Makes an authority and a certificate for each node, each with its key, in a folder that is new."""
    os.mkdir(folder, 0o700)
    key = ["-newkey", "ec", "-pkeyopt", "ec_paramgen_curve:P-256", "-nodes"]
    openssl(
        folder, "req", "-x509", *key, "-days", "3650", "-subj", "/CN=scatter store", "-keyout", "store.key", "-out", "store.crt"
    )
    for node in nodes:
        name = f"node-{node}"
        openssl(folder, "req", *key, "-subj", f"/CN=scatter node {node}", "-keyout", f"{name}.key", "-out", f"{name}.csr")
        openssl(
            folder, "x509", "-req", "-days", "3650", "-in", f"{name}.csr", "-CA", "store.crt",
            "-CAkey", "store.key", "-CAcreateserial", "-out", f"{name}.crt",
        )  # fmt: skip
        os.remove(os.path.join(folder, f"{name}.csr"))
