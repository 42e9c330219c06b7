"""A desk with the page of deploy/page in front of it, over the loopback: nginx serves the page and the building's
description, and hands on who asks for points and reports; to whoever asks (`page_of`), or as deploy/nginx.conf has it
(`deployed_page_of`).
"""
import contextlib
import shutil
import socket
import subprocess
import time

from helpers import serving
from helpers.trying import ROOT, expect

PAGE = ROOT / "deploy" / "page"
# Debian has it where the PATH of a user who is not root doesn't lead.
NGINX = shutil.which("nginx") or shutil.which("nginx", path="/usr/sbin:/usr/local/sbin")
DEPLOYED = PAGE.parent / "nginx.conf"
CONFIGURATION = """
daemon off;
worker_processes 1;
pid {folder}/nginx.pid;
error_log {folder}/nginx.log;
events {{ worker_connections 64; }}
http {{
    types {{ text/html html; text/css css; text/javascript js; application/json json; }}
    access_log off;
    client_body_temp_path {folder}/body;
    proxy_temp_path {folder}/proxy;
    fastcgi_temp_path {folder}/fastcgi;
    uwsgi_temp_path {folder}/uwsgi;
    scgi_temp_path {folder}/scgi;
    {servers}
}}
"""
OPEN_TO_ALL = """server {{
        listen 127.0.0.1:{port};
        add_header Content-Security-Policy "default-src 'self'" always;
        root {page};
        location = /description.json {{ root {folder}; }}
        location ~ ^/(points|reports)/ {{ proxy_pass http://{address}; }}
    }}"""


def free_port():
    with socket.create_server(("127.0.0.1", 0)) as free:
        return free.getsockname()[1]


def describe(program, folder):
    """Writes what the building of the folder has beside the database, and returns it."""
    ran = subprocess.run([program, "describe", "building.toml"], cwd=folder, capture_output=True, check=True, timeout=serving.SECONDS)
    (folder / "description.json").write_bytes(ran.stdout)
    return ran.stdout


def wait_until_listened(port, seconds=20):
    """Waits until something listens on the port."""
    end = time.monotonic() + seconds
    while time.monotonic() < end:
        with contextlib.suppress(ConnectionError):
            socket.create_connection(("127.0.0.1", port), timeout=seconds).close()
            return
        time.sleep(0.05)
    raise AssertionError("the proxy does not listen")


@contextlib.contextmanager
def nginx(servers, port, folder):
    """Runs nginx with these servers, one of which listens on the port."""
    configuration = folder / "nginx.conf"
    configuration.write_text(CONFIGURATION.format(folder=folder, servers=servers))
    words = [NGINX, "-p", str(folder), "-c", str(configuration), "-e", str(folder / "nginx.log")]
    # The proxy's workers may be another user's, and have to read what is served from here.
    folder.chmod(0o755)
    ran = subprocess.Popen(words, stdout=subprocess.DEVNULL, stderr=subprocess.DEVNULL)
    try:
        wait_until_listened(port)
        yield
    finally:
        ran.terminate()
        ran.wait(timeout=serving.SECONDS)


@contextlib.contextmanager
def page_of(server, folder):
    """The address of the page in front of a desk that serves the database of the folder."""
    port = free_port()
    servers = OPEN_TO_ALL.format(folder=folder, page=PAGE, port=port, address=server.address)
    with nginx(servers, port, folder):
        yield f"http://127.0.0.1:{port}/"


@contextlib.contextmanager
def deployed_page_of(server, folder):
    """The port of the proxy of deploy/nginx.conf, whose certificates and description stand in the folder."""
    port, servers = free_port(), DEPLOYED.read_text()
    for old, new in (("/etc/desk/", f"{folder}/"), ("/usr/local/share/desk/page", str(PAGE)), ("/run/desk", str(folder)), ("/var/log/desk/", f"{folder}/"),
                     ("listen 443 ssl", f"listen 127.0.0.1:{port} ssl"), ("127.0.0.1:8080", server.address)):
        expect(old in servers, True)
        servers = servers.replace(old, new)
    with nginx(servers, port, folder):
        yield port
