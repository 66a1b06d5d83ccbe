# Decodes SMS-DELIVERs, one a line in hexadecimal, as others do: 'gammu' by python-gammu's DecodePDU, a JSON object a line;
# 'pcap' writes them as exported PDUs for tshark.
import binascii, json, struct, sys


def gammu_lines(units):
    import gammu

    for unit in units:
        told = gammu.DecodePDU(binascii.unhexlify("00" + unit.strip()))
        told["DateTime"] = str(told["DateTime"])
        print(json.dumps({k: told[k] for k in ("Number", "Text", "DateTime", "Coding", "Class")}))


def pcap(units, out):
    out.write(struct.pack("<IHHiIII", 0xA1B2C3D4, 2, 4, 0, 0, 65535, 252))
    name = b"gsm_sms\0"
    head = struct.pack(">HH", 12, len(name)) + name + struct.pack(">HH", 0, 0)
    for unit in units:
        data = head + binascii.unhexlify(unit.strip())
        out.write(struct.pack("<IIII", 0, 0, len(data), len(data)) + data)


if sys.argv[1] == "gammu":
    gammu_lines(sys.stdin)
else:
    pcap(sys.stdin, sys.stdout.buffer)
