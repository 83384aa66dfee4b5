// A client over node's own WebSocket: prints each line that comes, up to the second update of an item.
const port = process.argv[2] ?? '8080';
const socket = new WebSocket(`ws://localhost:${port}/lightstreamer`, 'TLCP-2.1.0.lightstreamer.com');
let updates = 0;

socket.onopen = () => {
  socket.send('create_session\r\n');
  socket.send('control\r\nLS_reqId=1&LS_op=add&LS_subId=1&LS_mode=MERGE&LS_group=quote&LS_schema=last+time');
};
socket.onmessage = ({ data }) => {
  process.stdout.write(data);
  updates += data.startsWith('U,');
  if (updates === 2) socket.close();
};
