# A client over the Python library `websockets`: prints each line that comes, up to the second update of an item.
import asyncio, sys, websockets

async def main(port="8080"):
    url = f"ws://localhost:{port}/lightstreamer"
    async with websockets.connect(url, subprotocols=["TLCP-2.1.0.lightstreamer.com"]) as socket:
        await socket.send("create_session\r\n")
        await socket.send("control\r\nLS_reqId=1&LS_op=add&LS_subId=1&LS_mode=MERGE&LS_group=quote&LS_schema=last+time")
        updates = 0
        while updates < 2:
            line = await socket.recv()
            print(line, end="", flush=True)
            updates += line.startswith("U,")

asyncio.run(main(*sys.argv[1:]))
