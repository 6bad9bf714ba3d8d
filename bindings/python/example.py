from paizkorde import Document

settings = Document.parse('{"name":"kiosk","ports":[80,443]}')
print("port", settings["ports"][1].to_python())
settings.insert("", "debug", True)
print(settings)
