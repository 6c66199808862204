"""Two gateways and the call agent that serves them, over a network as it is asked for."""
import os
import re
import shlex
from collections.abc import Callable

from rgw_bench.phones import Phones
from rgw_bench.relay import Fate, Relay
from running import Bench, Program, command, free_ports, until

# So long anything may take, in s: over a bad network a command is given up after 23.5 s, and a call has several.
LONGEST = 180.0
BAD_NETWORK = "lose 20%, copy 10%, late 0-2000"
Relays = Callable[..., Relay]


def agent_words(config: str, own: str, network: str) -> list[str]:
    """The command that starts the call agent: rgca, or AGENT, in which {own} stands for its address, {config} for a file as rgca takes it,
    and {network} for the network's text."""
    if asked := os.environ.get("AGENT"):
        return shlex.split(asked.format(own=own, config=shlex.quote(config), network=network))
    words = [*command("rgca"), config, "--route", "--control", "127.0.0.1:0"]
    return [*words, "--network", network] if network else words


class Exchange:
    """The gateways gw1, at 127.0.0.1, with the numbers 201 on, and gw2, at 127.0.0.2, with 301 on.

    `network` is what the programs do to what they send, each with a seed of its own. By `through` all goes through a relay, with a fate
    for either direction.
    """

    def __init__(self, bench: Bench, lines: int, network: str = "", through: tuple[Relays, Fate, Fate] | None = None):
        own, home = free_ports(2)
        self.lines, agent = lines, home if through else own
        self.gateways = [self.gateway(bench, place, agent, f"{network}, seed {place + 1}" if network else "") for place in (1, 2)]
        fronts = [it.address for it in self.gateways]
        if through:
            fronts = [("127.0.0.1", port) for port in free_ports(2)]
            relay, inward, outward = through
            relay(dict(zip(fronts, (it.address for it in self.gateways))), ("127.0.0.1", home), ("127.0.0.1", own), inward, outward)
        config = bench.folder / "agent.toml"
        text = f'own = "127.0.0.1:{own}"\ndigit_map = "([23]xx|9xx)"\n'
        for place, (host, port) in enumerate(fronts, 1):
            numbers = ", ".join(f'"{number}"' for name, number in self.numbers().items() if name.startswith(f"gw{place}:"))
            text += f'[gateways."gw{place}.example.net"]\naddress = "{host}:{port}"\nnumbers = [{numbers}]\n'
        config.write_text(text)
        self.agent = bench.start(agent_words(str(config), f"127.0.0.1:{own}", f"{network}, seed 1" if network else ""))
        # (an agent may take a line for busy of which it doesn't know yet)
        assert until(self.is_asked_for, LONGEST), "the agent doesn't ask each line for what happens there"

    def gateway(self, bench: Bench, place: int, agent: int, network: str) -> Program:
        """A gateway, which announces itself to this port."""
        host = f"127.0.0.{place}"
        config = bench.config(agent, f"gw{place}.toml", f"gw{place}.example.net", self.lines, host)
        words = [*command("rgwd"), config, "--listen", f"{host}:0", "--phones", f"{host}:0", "--log"]
        return bench.start([*words, "--network", network] if network else words)

    def numbers(self) -> dict[str, str]:
        """The number of each telephone, by its name."""
        return {f"gw{place}:{line}": str(100 * place + 100 + line) for place in (1, 2) for line in range(1, self.lines + 1)}

    def is_asked_for(self) -> bool:
        """Whether the agent has asked each line for what happens there."""
        found = [re.search(r"RQNT (\d+)", it.tell("counts\n")) for it in self.gateways]
        return all(it and int(it[1]) >= self.lines for it in found)

    def phones(self) -> Phones:
        """All telephones."""
        return Phones({f"gw{place}": it.addresses[1] for place, it in enumerate(self.gateways, 1)})

    def not_at_rest(self) -> list[str]:
        """What is shown of lines that have a connection or a signal, or are off hook."""
        told = [line for it in self.gateways for line in it.tell("show *\n").splitlines()]
        assert len(told) == 2 * self.lines
        return [line for line in told if not re.fullmatch(r"line \d+ on signals - connections - lost 0", line)]

    def end(self) -> None:
        """Ends the gateways in order."""
        for it in self.gateways:
            assert it.stop()[2] == 0
        self.agent.process.terminate()
        self.agent.wait(20)
