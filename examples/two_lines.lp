cpu usage=64i
m 5
