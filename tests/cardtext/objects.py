"""The data objects, by writer: tag, least and most bytes, format, name."""

CONFIGURATION = '''
DF8121 5 5 b Terminal Action Code - Denial
DF8122 5 5 b Terminal Action Code - Online
DF8123 6 6 n Reader Contactless Floor Limit
DF856C 1 250 b Default CDOL1
9F35 1 1 n Terminal Type
9F33 3 3 b Terminal Capabilities
9F1A 2 2 n Terminal Country Code
9F1E 8 8 an Interface Device Serial Number
9F09 2 2 b Application Version Number (Reader)
'''
TERMINAL_BEFORE_BEGIN = '''
9F02 6 6 n Amount, Authorised (Numeric)
9F03 6 6 n Amount, Other (Numeric)
5F2A 2 2 n Transaction Currency Code
9A 3 3 n Transaction Date
9C 1 1 n Transaction Type
9F37 4 4 b Unpredictable Number
'''
TERMINAL = '''
DF8112 1 252 b Tags To Read
9F4E 1 64 ans Merchant Name and Location
'''
CARD = '''
50 1 16 ans Application Label
57 1 19 b Track 2 Equivalent Data
5A 1 10 cn Application PAN
5F24 3 3 n Application Expiration Date
5F34 1 1 n Application PAN Sequence Number
82 2 2 b Application Interchange Profile
84 5 16 b DF Name
8C 1 250 b CDOL1
94 4 248 b Application File Locator
9F07 2 2 b Application Usage Control
9F10 1 32 b Issuer Application Data
9F11 1 1 n Issuer Code Table Index
9F12 1 16 ans Application Preferred Name
9F24 29 29 an Payment Account Reference
9F26 8 8 b Application Cryptogram
9F27 1 1 b Cryptogram Information Data
9F36 2 2 b Application Transaction Counter
9F38 1 250 b PDOL
9F8109 8 8 b Issuer Application Data MAC
'''
READER = '''
95 5 5 b Terminal Verification Results
DF8115 6 6 b Error Indication
'''


def entries():
    """For each tag, as its digits: the writer, the least and the most bytes, the format and the name."""
    table = {}
    for writer, rows in (('configuration', CONFIGURATION), ('terminal before begin', TERMINAL_BEFORE_BEGIN), ('terminal', TERMINAL),
                         ('card', CARD), ('reader', READER)):
        for row in rows.strip().split('\n'):
            tag, least, most, form, name = row.split(' ', 4)
            table[tag] = (writer, int(least), int(most), form, name)
    for i in range(10):
        table['9F81%02X' % (0x11 + i)] = ('card', 1, 243, 'b', 'Data Envelope %d' % (i + 1))
    assert len(table) == 48
    return table
