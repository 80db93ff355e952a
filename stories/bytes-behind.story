# A line of bytes is served as one record; what stands behind it is not looked at, and it is told how much that is.
20 enter 500
raw 2800a000000800 2f
raw 2800a000000800 2f 2f
raw 2800a000000800 2f 2800a000000800 2f
# So it is where the record is refused, too.
raw 2800a000000801 2f 2f2f
raw 2800a000000800 61 2f2f2f
# A record that is cut off takes no byte, so that nothing stands behind it.
raw 2800a000003800 2f696e
