# In this product a word may have hyphens, where it is asked for.
CFLAGS:append = " ${@bb.utils.contains('FEATURES', 'hyphens', '-DHYPHENS=1', '-DHYPHENS=0', d)}"
