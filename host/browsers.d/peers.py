"""The peers: what each needs, and the command that runs cases in it. All of them send their offers and results to a
server of host/browsers, whose address they are given."""
import os
from dataclasses import dataclass

import machine

CHROMIUM_OPTIONS = [
    "--headless=new",
    "--no-sandbox",  # it needs none for pages of this machine, and root gets none
    "--disable-gpu",
    "--disable-dev-shm-usage",
    "--disable-background-networking",
    "--disable-breakpad",
    "--disable-extensions",
    "--no-first-run",
    "--allow-loopback-in-peer-connection",
    "--disable-features=WebRtcHideLocalIpsWithMdns",  # for want of multicast here no name would be found
]

# Firefox gathers the addresses of the loopback interface if it is told to, and if the page captures, for which it gets
# a false device without a question. The rest keeps it from looking for what this network does not have.
FIREFOX_PREFERENCES = {
    "media.peerconnection.ice.loopback": True,
    "media.peerconnection.ice.obfuscate_host_addresses": False,
    "media.peerconnection.ice.proxy_only": False,
    "media.navigator.permission.disabled": True,
    "media.navigator.streams.fake": True,
    "app.update.enabled": False,
    "browser.shell.checkDefaultBrowser": False,
    "browser.startup.homepage_override.mstone": "ignore",
    "datareporting.policy.dataSubmissionEnabled": False,
    "network.captive-portal-service.enabled": False,
    "network.connectivity-service.enabled": False,
    "services.settings.server": "http://127.0.0.1:9/",
    "toolkit.telemetry.enabled": False,
}


@dataclass(frozen=True)
class Peer:
    name: str
    title: str  # {} stands for the version of `package`
    package: str  # that which names the version
    packages: tuple  # all that it needs

    def environment(self, _folder):
        return dict(os.environ)


@dataclass(frozen=True)
class Chromium(Peer):
    def command(self, folder, base, query):
        return ["chromium", *CHROMIUM_OPTIONS, f"--user-data-dir={folder}", f"{base}cases.html?{query}"]


@dataclass(frozen=True)
class Firefox(Peer):
    uses_dcsctp: bool = True

    def environment(self, folder):
        return {**os.environ, "HOME": folder, "MOZ_HEADLESS": "1"}

    def command(self, folder, base, query):
        preferences = {**FIREFOX_PREFERENCES, "media.peerconnection.sctp.use_dcsctp": self.uses_dcsctp}
        with open(os.path.join(folder, "user.js"), "w", encoding="utf-8") as file:
            for name, value in preferences.items():
                written = f'"{value}"' if isinstance(value, str) else str(value).lower()
                file.write(f'user_pref("{name}", {written});\n')
        return ["firefox-esr", "-headless", "-no-remote", "-profile", folder, f"{base}cases.html?{query}"]


@dataclass(frozen=True)
class Pion(Peer):
    def command(self, _folder, base, query):
        return [os.path.join(machine.OUT, "pion_peer"), base, query]


@dataclass(frozen=True)
class Aiortc(Peer):
    def command(self, _folder, base, query):
        return ["/usr/bin/python3", os.path.join(machine.HERE, "aiortc_peer.py"), base, query]


PEERS = [
    Chromium("chromium", "Chromium {}", "chromium", ("chromium",)),
    Firefox("firefox", "Firefox {}", "firefox-esr", ("firefox-esr",)),
    Firefox("firefox-usrsctp", "Firefox {}, usrsctp", "firefox-esr", ("firefox-esr",), uses_dcsctp=False),
    Pion("pion", "pion {}", "golang-github-pion-webrtc.v3-dev", ("golang-go", "golang-github-pion-webrtc.v3-dev")),
    Aiortc("aiortc", "aiortc {}", "python3-aiortc", ("python3-aiortc",)),
]
