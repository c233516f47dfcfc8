import reed_solomon_simd as rs

message = b"Three shards of one size are coded.."
size = rs.shard_bytes(len(message), 3)
originals = [message[i * size:(i + 1) * size] for i in range(3)]
recovery = rs.encode(originals, 2)

# Originals 0 and 2 get lost. The recovery shards are there, each with its index.
restored = rs.decode(3, 2, {1: originals[1]}, {0: recovery[0], 1: recovery[1]})
print((restored[0] + originals[1] + restored[2]).decode())

try:
    rs.decode(3, 2, {1: originals[1]}, {0: recovery[0]})
except rs.Error as error:
    print(error.name, error)
