"""A peer by aiortc: runs the cases that its second argument names, each over a connection of its own, and tells each
result to the server of host/browsers, whose address is the first argument."""
import asyncio
import json
import sys

sys.dont_write_bytecode = True

from aiortc_cases import CASES  # noqa: E402
from aiortc_connection import QUERY, Connection, post  # noqa: E402


async def run(name, case):
    connection = Connection()
    try:
        return {"case": name, "passed": True, "note": await case(connection) or ""}
    except Exception as error:  # whatever it is, it ends this case alone
        note = f"{type(error).__name__}: {error}; {connection.state()}"
        return {"case": name, "passed": False, "note": note}
    finally:
        await connection.end()


async def main():
    for name in QUERY["cases"].split(","):
        await post("result", json.dumps(await run(name, CASES[name])).encode())


if __name__ == "__main__":
    asyncio.run(main())
