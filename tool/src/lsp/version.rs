//! The version of a document, as its client counts: answers name what they are about.

use super::json::Json;
use super::protocol::Client;

pub struct Version(Option<Json>);

impl Version {
    /// By the parameters of a notification.
    pub fn read(params: &Json) -> Version {
        let version = params.at(&["textDocument", "version"]);
        Version(version.filter(|version| matches!(version, Json::Number(_))).cloned())
    }

    /// An object with the version, where there is one.
    pub fn named(&self, object: Json) -> Json {
        match &self.0 {
            Some(version) => object.with("version", version.clone()),
            None => object,
        }
    }

    /// Edits of one document as an edit of the workspace. One that names the version is not made in a later text.
    pub fn edit(&self, uri: &str, edits: Json, client: &Client) -> Json {
        if !client.document_changes {
            return Json::object([("changes", Json::object([(uri, edits)]))]);
        }
        let version = self.0.clone().unwrap_or(Json::Null);
        let document = Json::object([("uri", uri.into()), ("version", version)]);
        let changes = Json::object([("textDocument", document), ("edits", edits)]);
        Json::object([("documentChanges", Json::array([changes]))])
    }
}
