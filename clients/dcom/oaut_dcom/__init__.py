"""oaut-dcom: a DCOM server in front of the gateway's socket (docs/guide/dcom.md)."""
